/* Basinpantry: judges the funding transactions that a peer proposes when a CKB payment channel is opened. Every function here is a thin one over the
   proved library; link target/staticlib/libcapi.a (`tools/staticlib`).

   Lent bytes are a pointer and a length, and the caller answers for both: nothing can be proved of them here. The pointer may be NULL where the length is 0. A
   buffer that is written to overlaps nothing else that is lent to the same call.
   Numbers in bytes are little-endian; transactions, scripts and lists have the Molecule forms of RFC 0008 and 0019. No bytes at all are only what a comment
   below says that they are ("no bytes: none"). An empty list has bytes: 00000000 of sized items (out points, cell deps, header deps, inputs), 04000000 of
   unsized ones (records, token cells, updates, outputs, data, witnesses); no bytes in its place are 3.

   A function whose comment says "Refused" returns 0 on success, or the number of its refusal (BASINPANTRY_.., below), and then no table and no buffer that
   was lent has changed. The numbers are listed in the order in which they are looked for: where several apply, the first of them is the answer.
   Some of these functions, and none of the twelve on tables of cells, have more to tell, in `values`: an array of BASINPANTRY_VALUES words of 64 bits, for
   which the caller answers as for every pointer; it is never NULL. On success such a call sets the words that its comment names, where it is refused those that
   the refusal carries (6 and 8, below, and no other), and all others keep their value.
   `places_len` and `answers_len` count words of 64 bits; every other length counts bytes.

   A thread that calls needs half a megabyte of stack; measured were up to 212 KB (basinpantry_check_case) and 195 KB (basinpantry_take). Calls may run at once
   unless one of them writes to a table or buffer that another is lent: two that only read a table may. */
#ifndef BASINPANTRY_H
#define BASINPANTRY_H

/* The version, 0.1.0: 10,000 times the first number, 100 times the second and the third. */
#define BASINPANTRY_VERSION 100

#include <stdbool.h>
#include <stddef.h>
#include <stdint.h>

#ifdef __cplusplus
extern "C" {
#endif

/* Why a call is refused; basinpantry_refusal_sentence says it in words. Only two carry values:
   6, values[0]: the input's index among all inputs;
   8, values[0] to values[3]: the fee paid and the fee required in shannons, the fee rate in shannons for 1,000 bytes, the size in bytes. */
#define BASINPANTRY_OUR_TRANSACTION_UNREADABLE 1
#define BASINPANTRY_PEER_TRANSACTION_UNREADABLE 2
#define BASINPANTRY_LENT_BYTES_UNREADABLE 3
#define BASINPANTRY_PEER_FUNDING_TX_EXCEEDS_LIMIT 4
#define BASINPANTRY_INVALID_PEER_FUNDING_TX 5
#define BASINPANTRY_PEER_INPUT_USES_OUR_FUNDING_LOCK 6
#define BASINPANTRY_OVERFLOW_ERROR 7
#define BASINPANTRY_PEER_FUNDING_FEE_TOO_LOW 8
#define BASINPANTRY_INSUFFICIENT_CELLS 9
#define BASINPANTRY_TOKEN_TOTAL_OVERFLOW 10
#define BASINPANTRY_MISSING_CELL_DEP 11
#define BASINPANTRY_TOKEN_CELL_DATA_TOO_SHORT 12
#define BASINPANTRY_BUFFER_TOO_SHORT 13
#define BASINPANTRY_TOO_MANY_HOLDS 14
#define BASINPANTRY_TOO_MANY_EXCLUSIONS 15

/* The sentence of a refusal's number; NULL of any other number. */
static inline const char *basinpantry_refusal_sentence(uint32_t number)
{
    switch (number) {
    case 1:
        return "our own transaction's bytes are no transaction";
    case 2:
        return "the peer's bytes are no transaction";
    case 3:
        return "a lent script, list, record, hash or table is unreadable, the records are not one for each added input, or there is no such list or item";
    case 4:
        return "the peer's transaction is over the size limit, or adds too many inputs, outputs, cell deps or header deps";
    case 5:
        return "the peer's funding transaction is invalid";
    case 6:
        return "an input that the peer added spends a cell under our own source lock";
    case 7:
        return "a figure, or a sum of figures, is too wide";
    case 8:
        return "the fee is too low";
    case 9:
        return "the token cells ended before their total reached the wanted amount";
    case 10:
        return "the total of the picked token cells is 2^128 or more";
    case 11:
        return "tokens were picked, and the token's cell deps or the lock's were not supplied";
    case 12:
        return "a token cell's data is under 16 bytes";
    case 13:
        return "the result is over the lent buffer, or over 133,116 bytes";
    case 14:
        return "the call would leave more than 256 hold records";
    case 15:
        return "the call would leave more than 64 excluded transactions or 512 out points";
    default:
        return NULL;
    }
}

/* How many words `values` has. */
#define BASINPANTRY_VALUES 4

/* The longest transaction that is judged, and the most bytes of a transaction, an item or a change output that is written. */
#define BASINPANTRY_MAX_TRANSACTION_BYTES 133116

/* ---- reading and writing */

/* Whether the bytes are a transaction (RFC 0019). */
bool basinpantry_is_transaction(const uint8_t *s, size_t s_len);

/* Whether the bytes are a script. */
bool basinpantry_is_script(const uint8_t *s, size_t s_len);

/* Whether the bytes are a list of resolved cells: a list of unsized items, each empty (not live) or a table of output and data. */
bool basinpantry_is_records(const uint8_t *s, size_t s_len);

/* How many bytes an out point has. */
#define BASINPANTRY_OUT_POINT_BYTES 36

/* Whether the bytes are a list of out points: a count of four bytes and 36 bytes for each. */
bool basinpantry_is_out_points(const uint8_t *s, size_t s_len);

/* The version of a transaction: on success values[0]. This and the next three look first whether the bytes are a transaction, in time that goes by their
   length. Refused: 1, where tx is no transaction. */
uint32_t basinpantry_version(const uint8_t *tx, size_t tx_len, uint64_t values[4]);

/* The lists of a transaction, by number. */
#define BASINPANTRY_CELL_DEPS 0
#define BASINPANTRY_HEADER_DEPS 1
#define BASINPANTRY_INPUTS 2
#define BASINPANTRY_OUTPUTS 3
#define BASINPANTRY_OUTPUTS_DATA 4
#define BASINPANTRY_WITNESSES 5

/* How many items a list of a transaction has: on success values[0]. Refused: 1, where tx is no transaction; 3, where there is no such list. */
uint32_t basinpantry_item_count(const uint8_t *tx, size_t tx_len, uint32_t list, uint64_t values[4]);

/* How many words each item has in `places`: where it starts in tx, and how many bytes it has. */
#define BASINPANTRY_PLACE_WORDS 2

/* Where the items of a list of a transaction stand, all of them after one reading of it, so that the caller goes through the list in its own bytes. For item
   i, tx + places[2 * i] is where it starts, and it has places[2 * i + 1] bytes: those that basinpantry_item writes, and however many they are. Words behind
   those of the last item keep their value. On success values[0] is how many items there are.
   Refused: 1, where tx is no transaction; 3, where there is no such list; 13, where `places` has fewer than two words for each item. */
uint32_t basinpantry_items(const uint8_t *tx, size_t tx_len, uint32_t list, uint64_t *places, size_t places_len, uint64_t values[4]);

/* Writes item i of a list of a transaction to the start of out: a cell dep (37 bytes), header dep (32), input (44), output (a table), or the bytes of a
   data entry or a witness. Each call reads the whole transaction first; basinpantry_items is for a whole list. On success values[0] is how many bytes.
   Refused: 1, where tx is no transaction; 3, where there is no such list or no item i; 13, where the item is longer than out, or has more than 133,116 bytes
   however long out is (the transaction itself may be longer). */
uint32_t basinpantry_item(const uint8_t *tx, size_t tx_len, uint32_t list, size_t i, uint8_t *out, size_t out_len, uint64_t values[4]);

/* Writes a transaction from its version and six lists. On success values[0] is how many bytes; BASINPANTRY_MAX_TRANSACTION_BYTES are always enough.
   Refused: 3, 13. */
uint32_t basinpantry_write_transaction(uint32_t version, const uint8_t *cell_deps, size_t cell_deps_len, const uint8_t *header_deps, size_t header_deps_len,
                                       const uint8_t *inputs, size_t inputs_len, const uint8_t *outputs, size_t outputs_len, const uint8_t *outputs_data,
                                       size_t outputs_data_len, const uint8_t *witnesses, size_t witnesses_len, uint8_t *out, size_t out_len,
                                       uint64_t values[4]);

/* Reads the fields of a transaction and writes them again. On success values[0] is how many bytes. Refused: 1, 13. */
uint32_t basinpantry_rewrite(const uint8_t *tx, size_t tx_len, uint8_t *out, size_t out_len, uint64_t values[4]);

/* ---- a peer's update */

/* Judges the peer's transaction against ours (no bytes: none), under the expected funding lock, the expected token type (no bytes: untyped), our source
   lock and a fee rate in shannons for 1,000 bytes. `records` has the cell that each added input spends, in the order of these inputs, as the chain has it: the
   caller answers for that. Each input entry counts by itself: a cell that the peer lists twice counts twice. After 0 the peer's transaction is in force,
   after a refusal ours.
   The time goes by the bytes lent. Cell deps in another order that were made to meet in the library's digest are sorted: n log n comparisons.
   On success values[0] and values[1] are the capacity surplus (low half, high half), values[2] and values[3] the token surplus (low half, high half).
   Refused: 1, 2, 3 (a script), 4, 5 (compared with ours), 3 (the records), 5 and 6 (input by input), 5 (output 0, and the capacity), 8, 5 and 7 (the
   tokens). */
uint32_t basinpantry_update_for_peer(const uint8_t *ours, size_t ours_len, const uint8_t *peer, size_t peer_len, const uint8_t *lock, size_t lock_len,
                                     const uint8_t *udt, size_t udt_len, const uint8_t *source, size_t source_len, uint64_t rate, const uint8_t *records,
                                     size_t records_len, uint64_t values[4]);

/* How many words the answer to each update of a list has: its number and four values. */
#define BASINPANTRY_ANSWER_WORDS 5

/* Judges a list of updates, from the transaction `start` (no bytes: none) on and each against the one that the update before it left in force, under one
   expected lock and type (no bytes: untyped). `updates` is a list of unsized items, each a table of four fields: the peer's transaction, the records and the
   source lock, each as bytes with their count, and the fee rate (8 bytes, as above). For update k, answers[5 * k] is 0 or the number of its refusal, and the
   four words after it are its values, as above, and 0 where it has fewer; words behind those of the last update keep their value.
   On success values[0] is how many updates there are, values[1] how many were accepted, and values[2] which transaction is then in force: 0 for the one at the
   start, k + 1 for that of update k.
   Refused, before any update is judged: 3 where `updates` is not such a list, 13 where `answers` has fewer than five words for each update. A `start`, lock or
   type that can't be read refuses each update. */
uint32_t basinpantry_replay(const uint8_t *start, size_t start_len, const uint8_t *lock, size_t lock_len, const uint8_t *udt, size_t udt_len,
                            const uint8_t *updates, size_t updates_len, uint64_t *answers, size_t answers_len, uint64_t values[4]);

/* The longest verdict line, with its newline, and the longest case file that is judged. */
#define BASINPANTRY_LINE_BYTES 105
#define BASINPANTRY_MAX_CASE_BYTES 65536

/* Writes the verdict line of a case file to the start of `line`: BASINPANTRY_LINE_BYTES are always enough. The line of bytes that are no case file, or more
   than BASINPANTRY_MAX_CASE_BYTES, says 3. On success values[0] is how many bytes it has. Refused: 13, where this line is longer than `line`. */
uint32_t basinpantry_check_case(const uint8_t *file, size_t file_len, uint8_t *line, size_t line_len, uint64_t values[4]);

/* ---- our own side */

/* The six figures of a funding request are, for us and then for the peer, an amount in two halves (of shannons where the channel is untyped, else of the token)
   and a reserve in shannons. Those of the peer are not looked at while our present transaction is none or has no outputs. */

/* The funding cell beside our present transaction (no bytes: none), of this token type (no bytes: untyped).
   On success values[0] is the capacity, values[1] and values[2] are the token amount (low half, high half). Refused: 1, 3, 7. */
uint32_t basinpantry_build_funding_cell(const uint8_t *ours, size_t ours_len, const uint8_t *udt, size_t udt_len, uint64_t local_low, uint64_t local_high,
                                        uint64_t local_reserved, uint64_t remote_low, uint64_t remote_high, uint64_t remote_reserved, uint64_t values[4]);

/* Picks token cells, a list of tables of out point and data, from the first on until their total reaches the wanted amount; without a type (no bytes: untyped)
   nothing is picked. The caller answers for the cells: that they are live, under our lock, of the type, and listed once. The change output, if there is change,
   goes to the start of out, 24 + source_len + udt_len bytes; its data, the change in 16 bytes, is for the caller to write.
   On success values[0] is how many cells, values[1] and values[2] are the change (low half, high half), values[3] is the capacity of its output (0: no change).
   Refused: 3, 12 and 10 (cell by cell), 9, 13. */
uint32_t basinpantry_build_udt_inputs_outputs(const uint8_t *cells, size_t cells_len, const uint8_t *udt, size_t udt_len, const uint8_t *source,
                                              size_t source_len, uint64_t wanted_low, uint64_t wanted_high, uint8_t *out, size_t out_len,
                                              uint64_t values[4]);

/* Writes the base transaction of a request, whose output 0 is the funding cell, to the start of out. It is lent, in this order and line by line below,
   - our present transaction (no bytes: none);
   - three scripts: the funding lock, the token type (no bytes: untyped), and our source lock, under which the change goes;
   - token cells, which are picked as above for the local amount;
   - cell deps: the token's, a list, and our source lock's, one cell dep of 37 bytes, which are needed and added where tokens are picked (no bytes: not
     supplied); and a list of others to be added;
   - the figures of the request, ours and the peer's;
   - the buffer and the values.
   On success values[0] is how many bytes; BASINPANTRY_MAX_TRANSACTION_BYTES are always enough.
   Refused: 1, 3, 7, 12 and 10 (cell by cell), 9, 11, 13. */
uint32_t basinpantry_build_base(const uint8_t *ours, size_t ours_len,
                                const uint8_t *lock, size_t lock_len, const uint8_t *udt, size_t udt_len, const uint8_t *source, size_t source_len,
                                const uint8_t *cells, size_t cells_len,
                                const uint8_t *udt_deps, size_t udt_deps_len, const uint8_t *lock_dep, size_t lock_dep_len,
                                const uint8_t *extra_deps, size_t extra_deps_len,
                                uint64_t local_low, uint64_t local_high, uint64_t local_reserved,
                                uint64_t remote_low, uint64_t remote_high, uint64_t remote_reserved,
                                uint8_t *out, size_t out_len, uint64_t values[4]);

/* ---- tables of cells: bytes that the caller keeps and lends to each call. All zeros are the empty table; any other content is safe.
   A table is a count (4 bytes), then its records one after the other. Bytes beyond them mean nothing, and a call leaves them as they were. A table of another
   length is 3, before all else but 1. Lists of out points are written to the start of their buffer as they are read: a count of four bytes and 36 bytes for
   each. */

/* Held cells: 256 places of 48 bytes, each an out point (36), a kind (4) and a number (8). Kind 0 is a funding, and the number its holder; any other kind the
   watchtower, and the number the end in milliseconds: every content means a table, and a count above 256 counts as 256. A call that is done writes the
   records that stand anew in this form. Watchtower records that have ended are dropped by lock_held and take; the two calls that hold count them for 14. Of a
   cell with two watchtower records, which no call makes, hold_for_watchtower renews the first, and release_for_watchtower drops both. */
#define BASINPANTRY_HELD_BYTES 12292

/* The funding inputs that `holder` holds now, in place of the ones that it held before. A holder is a number of the caller's: two that use one number replace
   each other's records, and an empty list lets all its cells go. Refused: 3, 14. */
uint32_t basinpantry_hold_funding(uint8_t *held, size_t held_len, uint64_t holder, const uint8_t *cells, size_t cells_len);

/* The cells of a transaction that the watchtower sent at `time`: held for 1,800,000 ms. This call and the next look at up to 256 records
   for each cell whose out point was made to share a slot with theirs. Refused: 3, 14. */
uint32_t basinpantry_hold_for_watchtower(uint8_t *held, size_t held_len, const uint8_t *cells, size_t cells_len, uint64_t time);

/* The cells of a transaction that the watchtower could not send are free again: its records of them are dropped, and no funding's. Refused: 3. */
uint32_t basinpantry_release_for_watchtower(uint8_t *held, size_t held_len, const uint8_t *cells, size_t cells_len);

/* So many bytes are always enough for what lock_held writes: 256 out points. */
#define BASINPANTRY_LOCK_HELD_BYTES 9220

/* Writes the out points of every record that holds at `time`, in the order of the records, for the caller to keep out of what it collects; watchtower records
   that have ended are dropped. Refused: 3, 13. */
uint32_t basinpantry_lock_held(uint8_t *held, size_t held_len, uint64_t time, uint8_t *out, size_t out_len);

/* Writes the out points of `picked` that are held at `time` or in `spent`, each once and in the order of the picks: picked_len bytes are enough, or
   133,116, and a longer list (over 3,697 out points) is 13 whatever the buffer. This call and the next make about (picks + spent + records) log picks
   comparisons. Up to 64 picks, and here those beyond the first 7,394, are looked up one by one in the records, in `spent` and among the picks before them.
   Refused: 3, 13. */
uint32_t basinpantry_unavailable(const uint8_t *held, size_t held_len, const uint8_t *picked, size_t picked_len, const uint8_t *spent, size_t spent_len,
                                 uint64_t time, uint8_t *out, size_t out_len);

/* Takes the cells `picked` for the watchtower, which holds them for 60,000 ms, or for the funding of `holder`, which is not looked at for the watchtower: a
   cell that is held, spent, or taken earlier in the call is refused.
   The lists of those taken and of those refused go into the two buffers; picked_len bytes are enough for each, or 133,116, and a
   longer list (over 3,697 out points) is 13 whatever the buffer, so that more than 7,394 picks always are. Watchtower records that have
   ended are dropped. Refused: 3, 13, 14. */
uint32_t basinpantry_take(uint8_t *held, size_t held_len, const uint8_t *picked, size_t picked_len, const uint8_t *spent, size_t spent_len, bool watchtower,
                          uint64_t holder, uint64_t time, uint8_t *taken, size_t taken_len, uint8_t *refused, size_t refused_len);

/* Excluded cells (LiveCellsExclusionMap): at most 64 entries with at most 512 out points in all. An entry is a transaction: its hash (32), its kind (4: 0
   pending, 1 committed), the block that it was committed in (8; 0 while pending), and the list of the out points that it spends. Bytes in no such form (more
   entries or out points, another kind, a pending entry with a block) are 3 like a table of another length, and stay as they are. A map in which a hash stands
   twice, which no call makes, is taken as a map. A hash has 32 bytes, else 3, also where there is no transaction. */
#define BASINPANTRY_EXCLUSIONS_BYTES 21508

/* Enters the inputs of a transaction under its hash, which the caller answers for: in the place of its entry, uncommitted, or last. No bytes are no
   transaction, and enter nothing. Refused: 1, 3, 15. */
uint32_t basinpantry_exclusions_add(uint8_t *map, size_t map_len, const uint8_t *hash, size_t hash_len, const uint8_t *tx, size_t tx_len);

/* The transaction of this hash was committed in this block; an unknown hash changes nothing. Refused: 3. */
uint32_t basinpantry_exclusions_commit(uint8_t *map, size_t map_len, const uint8_t *hash, size_t hash_len, uint64_t block);

/* Removes the transaction of this hash; an unknown hash changes nothing. Refused: 3. */
uint32_t basinpantry_exclusions_remove(uint8_t *map, size_t map_len, const uint8_t *hash, size_t hash_len);

/* Moves an entry to the transaction that replaces it: the old one goes, and the new one is entered. No bytes are no transaction, and the old one only goes; an
   unknown old hash changes nothing. Refused: 1, 3, 15. */
uint32_t basinpantry_exclusions_migrate_funding_tx(uint8_t *map, size_t map_len, const uint8_t *old_hash, size_t old_hash_len, const uint8_t *new_hash,
                                                   size_t new_hash_len, const uint8_t *tx, size_t tx_len);

/* Drops what was committed 13 blocks before the tip, or earlier. Refused: 3. */
uint32_t basinpantry_exclusions_truncate(uint8_t *map, size_t map_len, uint64_t tip);

/* So many bytes are always enough for what exclusions_apply writes: 512 out points. */
#define BASINPANTRY_EXCLUSIONS_APPLY_BYTES 18436

/* Writes the out points of all entries, in their order, for the caller to keep out of what it collects. Refused: 3, 13. */
uint32_t basinpantry_exclusions_apply(const uint8_t *map, size_t map_len, uint8_t *out, size_t out_len);

#ifdef __cplusplus
}
#endif

#endif
