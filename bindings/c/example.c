/* Every function of the C interface: the update of a case file (README.md, "Five minutes") is judged, then the same update with things wrong about it, by
   itself and in a list; then our own side, and the tables of cells.
   Usage: example FILE */
#include "basinpantry.h"

#include <inttypes.h>
#include <stdio.h>
#include <stdlib.h>
#include <string.h>

/* Ends the program where something is not as it should be; unlike assert it is there with NDEBUG too. */
#define CHECK(holds) check(holds, #holds, __LINE__)

static void check(bool holds, const char *what, int line)
{
    if (holds)
        return;
    fprintf(stderr, "example.c:%d: not so: %s\n", line, what);
    exit(1);
}

/* Bytes that are lent. */
struct bytes {
    const uint8_t *at;
    size_t len;
};

#define LENT(b) (b).at, (b).len

static uint32_t u32_at(const uint8_t *p)
{
    return (uint32_t)p[0] | (uint32_t)p[1] << 8 | (uint32_t)p[2] << 16 | (uint32_t)p[3] << 24;
}

/* Bytes that are written one after the other. */
struct text {
    uint8_t at[2048];
    size_t len;
};

static struct bytes bytes_of(const struct text *t)
{
    return (struct bytes){t->at, t->len};
}

static void put(struct text *t, struct bytes b)
{
    CHECK(b.len <= sizeof t->at - t->len);
    if (b.len > 0)
        memcpy(t->at + t->len, b.at, b.len);
    t->len += b.len;
}

static void put_number(struct text *t, uint64_t x, size_t bytes)
{
    for (size_t i = 0; i < bytes; i++)
        put(t, (struct bytes){(const uint8_t[]){(uint8_t)(x >> 8 * i)}, 1});
}

/* Bytes with their count. */
static void put_counted(struct text *t, struct bytes b)
{
    put_number(t, b.len, 4);
    put(t, b);
}

/* A table, or a list of unsized items: the size of all, where each part begins, the parts. */
static void put_table(struct text *t, const struct bytes *part, size_t n)
{
    size_t at = 4 + 4 * n, size = at;
    for (size_t i = 0; i < n; i++)
        size += part[i].len;
    put_number(t, size, 4);
    for (size_t i = 0; i < n; i++) {
        put_number(t, at, 4);
        at += part[i].len;
    }
    for (size_t i = 0; i < n; i++)
        put(t, part[i]);
}

/* A table of something and data: a record where it is an output, a token cell where it is an out point. */
static void put_with_data(struct text *t, struct bytes first, struct bytes data)
{
    struct text counted = {.len = 0};
    put_counted(&counted, data);
    put_table(t, (const struct bytes[]){first, bytes_of(&counted)}, 2);
}

/* An out point of the transaction whose hash is all of one byte. */
static void put_point(struct text *t, uint8_t hash, uint32_t index)
{
    for (int i = 0; i < 32; i++)
        put_number(t, hash, 1);
    put_number(t, index, 4);
}

/* The list of the out points 0 to n - 1 of that transaction. */
static struct text points(uint8_t hash, uint32_t n)
{
    struct text t = {.len = 0};
    put_number(&t, n, 4);
    for (uint32_t i = 0; i < n; i++)
        put_point(&t, hash, i);
    return t;
}

/* What a case file has. */
struct update {
    struct bytes ours, peer, lock, udt, source;
    uint64_t rate;
    struct text records;
};

/* The items of the file by their kind: a word of kind and length, then the body, padded to 4 bytes. This file has one record. */
static struct update read_case(const uint8_t *file, size_t n)
{
    struct bytes item[16];
    for (int kind = 0; kind < 16; kind++)
        item[kind] = (struct bytes){NULL, 0}; /* a missing item: no bytes */
    for (size_t at = 0; at < n;) {
        CHECK(n - at >= 4);
        uint32_t word = u32_at(file + at);
        size_t len = word & 0xfffffff;
        CHECK(len <= n - at - 4);
        item[word >> 28] = (struct bytes){file + at + 4, len};
        at += 4 + (len + 3) / 4 * 4;
    }
    CHECK(item[6].len == 8);
    struct update u = {.ours = item[1], .peer = item[2], .lock = item[3], .udt = item[4], .source = item[5]};
    u.rate = u32_at(item[6].at) | (uint64_t)u32_at(item[6].at + 4) << 32;
    struct text record = {.len = 0};
    put_with_data(&record, item[7], item[8]);
    put_table(&u.records, (const struct bytes[]){bytes_of(&record)}, 1);
    return u;
}

static uint32_t judge(const struct update *u, uint64_t values[BASINPANTRY_VALUES])
{
    return basinpantry_update_for_peer(LENT(u->ours), LENT(u->peer), LENT(u->lock), LENT(u->udt), LENT(u->source), u->rate, u->records.at, u->records.len,
                                       values);
}

static uint8_t out[BASINPANTRY_MAX_TRANSACTION_BYTES];

/* What the peer proposes. */
static void look(const struct update *u)
{
    uint64_t values[BASINPANTRY_VALUES];
    struct bytes peer = u->peer;
    CHECK(basinpantry_is_script(LENT(u->lock)) && basinpantry_is_records(u->records.at, u->records.len));
    CHECK(basinpantry_is_transaction(LENT(peer)));
    CHECK(basinpantry_version(LENT(peer), values) == 0);
    printf("peer's transaction: %zu bytes, version %" PRIu64, peer.len, values[0]);
    CHECK(basinpantry_item_count(LENT(peer), BASINPANTRY_INPUTS, values) == 0);
    printf(", inputs %" PRIu64, values[0]);
    CHECK(basinpantry_item_count(LENT(peer), BASINPANTRY_OUTPUTS, values) == 0);
    printf(", outputs %" PRIu64 "\n", values[0]);
    values[0] = 7;
    CHECK(basinpantry_version(peer.at, peer.len - 1, values) == BASINPANTRY_OUR_TRANSACTION_UNREADABLE);
    CHECK(basinpantry_item_count(peer.at, peer.len - 1, 6, values) == BASINPANTRY_OUR_TRANSACTION_UNREADABLE);
    CHECK(basinpantry_item_count(LENT(peer), 6, values) == BASINPANTRY_LENT_BYTES_UNREADABLE && values[0] == 7);

    /* Its items, each in the list of one that it came from, make the same transaction again. */
    struct text inputs = {.len = 0}, outputs = {.len = 0}, data = {.len = 0}, entry = {.len = 0};
    CHECK(basinpantry_item(LENT(peer), BASINPANTRY_INPUTS, 0, out, sizeof out, values) == 0 && values[0] == 44);
    put_number(&inputs, 1, 4);
    put(&inputs, (struct bytes){out, 44});
    CHECK(basinpantry_item(LENT(peer), BASINPANTRY_OUTPUTS, 0, out, sizeof out, values) == 0);
    printf("output 0: %" PRIu64 " bytes", values[0]);
    /* The same bytes where they stand in the peer's own. */
    uint64_t places[BASINPANTRY_PLACE_WORDS] = {7, 7};
    CHECK(basinpantry_items(LENT(peer), BASINPANTRY_OUTPUTS, places, 1, values) == BASINPANTRY_BUFFER_TOO_SHORT && places[0] == 7);
    CHECK(basinpantry_items(LENT(peer), BASINPANTRY_OUTPUTS, places, BASINPANTRY_PLACE_WORDS, values) == 0 && values[0] == 1);
    CHECK(memcmp(peer.at + places[0], out, (size_t)places[1]) == 0);
    printf(", which stand at %" PRIu64 "\n", places[0]);
    values[0] = places[1];
    put_table(&outputs, (const struct bytes[]){{out, (size_t)values[0]}}, 1);
    CHECK(basinpantry_item(LENT(peer), BASINPANTRY_OUTPUTS_DATA, 0, out, sizeof out, values) == 0);
    put_counted(&entry, (struct bytes){out, (size_t)values[0]});
    put_table(&data, (const struct bytes[]){bytes_of(&entry)}, 1);
    uint32_t why = basinpantry_item(LENT(peer), BASINPANTRY_WITNESSES, 0, out, sizeof out, values);
    printf("witness 0: refused with %" PRIu32 "\n", why);
    CHECK(why == BASINPANTRY_LENT_BYTES_UNREADABLE);
    const uint8_t none_sized[] = {0, 0, 0, 0}, none_unsized[] = {4, 0, 0, 0};
    why = basinpantry_write_transaction(0, none_sized, 4, none_sized, 4, inputs.at, inputs.len, outputs.at, outputs.len, data.at, data.len, none_unsized, 4,
                                        out, sizeof out, values);
    CHECK(why == 0 && values[0] == peer.len && memcmp(out, peer.at, peer.len) == 0);
    printf("written from its lists it is the same %" PRIu64 " bytes\n", values[0]);
    why = basinpantry_rewrite(LENT(peer), out, sizeof out, values);
    CHECK(why == 0 && values[0] == peer.len && memcmp(out, peer.at, peer.len) == 0);
    printf("its fields, written again, are the same %" PRIu64 " bytes\n", values[0]);
}

static void judge_in_many_ways(const struct update *u)
{
    uint64_t values[BASINPANTRY_VALUES];

    /* The update as it stands in the file. */
    uint32_t why = judge(u, values);
    CHECK(why == 0 && values[1] == 0 && values[2] == 0 && values[3] == 0);
    printf("at a rate of %" PRIu64 ": accepted, %" PRIu64 " shannons over\n", u->rate, values[0]);

    /* At a higher rate the fee is too low. */
    struct update other = *u;
    other.rate = 1005;
    why = judge(&other, values);
    CHECK(why == BASINPANTRY_PEER_FUNDING_FEE_TOO_LOW && values[2] == 1005);
    printf("at a rate of %" PRIu64 ": refused with %" PRIu32 ", %s: paid %" PRIu64 ", required %" PRIu64 ", size %" PRIu64 "\n", values[2], why,
           basinpantry_refusal_sentence(why), values[0], values[1], values[3]);

    /* A byte less is no transaction; a refusal that carries nothing leaves the words as they were. */
    other = *u;
    other.peer.len--;
    why = judge(&other, values);
    CHECK(why == BASINPANTRY_PEER_TRANSACTION_UNREADABLE && values[0] == 205 && values[2] == 1005);
    printf("with its last byte cut off: refused with %" PRIu32 ", %s\n", why, basinpantry_refusal_sentence(why));

    /* The peer spends our own cell: our source lock is the record's lock. */
    other = *u;
    other.source = u->lock;
    why = judge(&other, values);
    CHECK(why == BASINPANTRY_PEER_INPUT_USES_OUR_FUNDING_LOCK && values[2] == 1005);
    printf("where our source lock is the record's: refused with %" PRIu32 ", %s: input %" PRIu64 "\n", why, basinpantry_refusal_sentence(why), values[0]);
    CHECK(basinpantry_refusal_sentence(0) == NULL && basinpantry_refusal_sentence(256) == NULL);
}

/* The update twice in a list: the second adds no input to what the first left in force, so its record is one too many. */
static void replay(const struct update *u)
{
    struct text part[3] = {{.len = 0}, {.len = 0}, {.len = 0}}, rate = {.len = 0}, update = {.len = 0}, updates = {.len = 0};
    put_counted(&part[0], u->peer);
    put_counted(&part[1], bytes_of(&u->records));
    put_counted(&part[2], u->source);
    put_number(&rate, u->rate, 8);
    put_table(&update, (const struct bytes[]){bytes_of(&part[0]), bytes_of(&part[1]), bytes_of(&part[2]), bytes_of(&rate)}, 4);
    put_table(&updates, (const struct bytes[]){bytes_of(&update), bytes_of(&update)}, 2);

    uint64_t answers[2 * BASINPANTRY_ANSWER_WORDS], values[BASINPANTRY_VALUES];
    uint32_t why = basinpantry_replay(LENT(u->ours), LENT(u->lock), LENT(u->udt), updates.at, updates.len, answers, 2 * BASINPANTRY_ANSWER_WORDS, values);
    CHECK(why == 0 && values[0] == 2);
    printf("twice in a list: accepted %" PRIu64 " of %" PRIu64 "\n", values[1], values[0]);
    for (uint64_t k = 0; k < values[0]; k++) {
        const uint64_t *answer = answers + k * BASINPANTRY_ANSWER_WORDS;
        if (answer[0] == 0)
            printf("  update %" PRIu64 ": accepted, %" PRIu64 " shannons over\n", k, answer[1]);
        else
            printf("  update %" PRIu64 ": refused with %" PRIu64 "\n", k, answer[0]);
    }
    CHECK(values[2] > 0);
    printf("  in force: the transaction of update %" PRIu64 "\n", values[2] - 1);
    why = basinpantry_replay(LENT(u->ours), LENT(u->lock), LENT(u->udt), updates.at, updates.len, answers, 2 * BASINPANTRY_ANSWER_WORDS - 1, values);
    CHECK(why == BASINPANTRY_BUFFER_TOO_SHORT);
}

static uint32_t build_base(const struct update *u, size_t room, uint64_t values[BASINPANTRY_VALUES])
{
    const uint8_t no_cells[] = {4, 0, 0, 0}, no_deps[] = {0, 0, 0, 0};
    return basinpantry_build_base(NULL, 0,                                 /* no present transaction */
                                  LENT(u->lock), NULL, 0, LENT(u->source), /* funding lock, no type, source lock */
                                  no_cells, 4,                             /* no token cells */
                                  NULL, 0, NULL, 0, no_deps, 4,            /* the token's and the lock's deps not supplied, no others */
                                  5, 0, 7, 11, 0, 13,                      /* amount (two halves) and reserve, ours and the peer's */
                                  out, room, values);
}

/* Our own side: a funding cell, the token cells that pay for it, and the base transaction, which the peer's side can read. */
static void own_side(const struct update *u)
{
    uint64_t values[BASINPANTRY_VALUES];
    uint32_t why = basinpantry_build_funding_cell(LENT(u->peer), LENT(u->udt), 5, 0, 7, 11, 0, 13, values);
    CHECK(why == 0 && values[0] == 36);
    printf("funding cell: %" PRIu64 " shannons\n", values[0]);

    /* Cells of 30, 50 and 40 tokens, of which 70 are wanted. Any script will do for the token's type here. */
    struct text point[3], cell[3], cells = {.len = 0};
    const uint64_t amounts[3] = {30, 50, 40};
    for (uint32_t i = 0; i < 3; i++) {
        struct text amount = {.len = 0};
        point[i].len = cell[i].len = 0;
        put_point(&point[i], 7, i);
        put_number(&amount, amounts[i], 8);
        put_number(&amount, 0, 8);
        put_with_data(&cell[i], bytes_of(&point[i]), bytes_of(&amount));
    }
    put_table(&cells, (const struct bytes[]){bytes_of(&cell[0]), bytes_of(&cell[1]), bytes_of(&cell[2])}, 3);
    struct bytes type = u->lock;
    size_t change_len = 24 + u->source.len + type.len;
    why = basinpantry_build_udt_inputs_outputs(cells.at, cells.len, LENT(type), LENT(u->source), 70, 0, out, change_len, values);
    CHECK(why == 0 && values[2] == 0 && u32_at(out) == change_len);
    printf("70 tokens: %" PRIu64 " cells are picked, and %" PRIu64 " tokens go back in an output of %zu bytes and %" PRIu64 " shannons\n", values[0], values[1],
           change_len, values[3]);
    why = basinpantry_build_udt_inputs_outputs(cells.at, cells.len, LENT(type), LENT(u->source), 121, 0, out, change_len, values);
    CHECK(why == BASINPANTRY_INSUFFICIENT_CELLS);
    printf("121 tokens: refused with %" PRIu32 ", %s\n", why, basinpantry_refusal_sentence(why));

    why = build_base(u, sizeof out, values);
    CHECK(why == 0 && basinpantry_is_transaction(out, (size_t)values[0]));
    printf("base transaction: %" PRIu64 " bytes\n", values[0]);
    why = build_base(u, 100, values);
    CHECK(why == BASINPANTRY_BUFFER_TOO_SHORT);
    printf("base transaction in 100 bytes: refused with %" PRIu32 "\n", why);
}

/* Cells of ours that are in use: a table that starts as zeros. */
static void held_cells(void)
{
    static uint8_t held[BASINPANTRY_HELD_BYTES], list[BASINPANTRY_LOCK_HELD_BYTES], refused[BASINPANTRY_LOCK_HELD_BYTES];
    struct text two = points(1, 2), four = points(1, 4), none = points(1, 0), sent = points(2, 1);
    CHECK(basinpantry_is_out_points(four.at, four.len));
    CHECK(basinpantry_hold_funding(held, sizeof held, 7, two.at, two.len) == 0);
    CHECK(basinpantry_unavailable(held, sizeof held, four.at, four.len, none.at, none.len, 0, list, sizeof list) == 0);
    printf("held for a funding: 2 cells; unavailable of 4: %" PRIu32 "\n", u32_at(list));
    CHECK(basinpantry_take(held, sizeof held, four.at, four.len, none.at, none.len, true, 0, 1000, list, sizeof list, refused, sizeof refused) == 0);
    printf("taken for the watchtower: %" PRIu32 ", refused: %" PRIu32 "\n", u32_at(list), u32_at(refused));
    CHECK(memcmp(refused, two.at, two.len) == 0);
    CHECK(basinpantry_hold_for_watchtower(held, sizeof held, sent.at, sent.len, 1000) == 0);
    CHECK(basinpantry_lock_held(held, sizeof held, 60999, list, sizeof list) == 0);
    printf("held at 60,999 ms: %" PRIu32, u32_at(list));
    CHECK(basinpantry_lock_held(held, sizeof held, 61000, list, sizeof list) == 0);
    printf(", at 61,000 ms: %" PRIu32, u32_at(list));
    CHECK(basinpantry_release_for_watchtower(held, sizeof held, sent.at, sent.len) == 0);
    CHECK(basinpantry_hold_funding(held, sizeof held, 7, none.at, none.len) == 0);
    CHECK(basinpantry_lock_held(held, sizeof held, 61000, list, sizeof list) == 0);
    printf(", after all were let go: %" PRIu32 "\n", u32_at(list));

    /* 257 records are too many, and the table is as it was. */
    static uint8_t many[4 + 257 * BASINPANTRY_OUT_POINT_BYTES] = {1, 1}, before[BASINPANTRY_HELD_BYTES];
    memcpy(before, held, sizeof held);
    uint32_t why = basinpantry_hold_funding(held, sizeof held, 7, many, sizeof many);
    CHECK(why == BASINPANTRY_TOO_MANY_HOLDS && memcmp(before, held, sizeof held) == 0);
    printf("257 cells: refused with %" PRIu32 ", %s\n", why, basinpantry_refusal_sentence(why));
}

/* Cells that transactions of ours spend, by the hash of the transaction, which is the caller's to compute. */
static void excluded_cells(const struct update *u)
{
    static uint8_t map[BASINPANTRY_EXCLUSIONS_BYTES], list[BASINPANTRY_EXCLUSIONS_APPLY_BYTES];
    const uint8_t hash[32] = {1}, new_hash[32] = {2};
    CHECK(basinpantry_exclusions_add(map, sizeof map, hash, 32, LENT(u->peer)) == 0);
    CHECK(basinpantry_exclusions_apply(map, sizeof map, list, sizeof list) == 0);
    printf("excluded while the transaction is pending: %" PRIu32, u32_at(list));
    CHECK(basinpantry_exclusions_migrate_funding_tx(map, sizeof map, hash, 32, new_hash, 32, LENT(u->peer)) == 0);
    CHECK(basinpantry_exclusions_commit(map, sizeof map, new_hash, 32, 100) == 0);
    CHECK(basinpantry_exclusions_truncate(map, sizeof map, 112) == 0);
    CHECK(basinpantry_exclusions_apply(map, sizeof map, list, sizeof list) == 0);
    printf(", 12 blocks after it was committed: %" PRIu32, u32_at(list));
    CHECK(basinpantry_exclusions_truncate(map, sizeof map, 113) == 0);
    CHECK(basinpantry_exclusions_apply(map, sizeof map, list, sizeof list) == 0);
    printf(", 13 blocks after: %" PRIu32 "\n", u32_at(list));
    CHECK(basinpantry_exclusions_add(map, sizeof map, hash, 32, LENT(u->peer)) == 0);
    CHECK(basinpantry_exclusions_remove(map, sizeof map, hash, 32) == 0);
    CHECK(basinpantry_exclusions_apply(map, sizeof map, list, sizeof list) == 0 && u32_at(list) == 0);
    uint32_t why = basinpantry_exclusions_apply(map, sizeof map - 1, list, sizeof list);
    CHECK(why == BASINPANTRY_LENT_BYTES_UNREADABLE);
    printf("a map of another length: refused with %" PRIu32 "\n", why);
}

int main(int argc, char **argv)
{
    static uint8_t file[BASINPANTRY_MAX_CASE_BYTES];
    if (argc != 2) {
        fprintf(stderr, "usage: %s FILE\n", argc > 0 ? argv[0] : "example");
        return 2;
    }
    FILE *f = fopen(argv[1], "rb");
    if (f == NULL) {
        perror(argv[1]);
        return 2;
    }
    size_t n = fread(file, 1, sizeof file, f);
    bool is_read = !ferror(f);
    fclose(f);
    if (!is_read) {
        fprintf(stderr, "%s: it can't be read\n", argv[1]);
        return 2;
    }
    struct update u = read_case(file, n);
    look(&u);
    judge_in_many_ways(&u);

    /* The whole file in one call. */
    uint8_t line[BASINPANTRY_LINE_BYTES];
    uint64_t values[BASINPANTRY_VALUES];
    CHECK(basinpantry_check_case(file, n, line, sizeof line, values) == 0);
    int len = (int)values[0];
    printf("its verdict line: %.*s", len, (const char *)line);
    CHECK(basinpantry_check_case(file, n, line, (size_t)len, values) == 0);
    CHECK(basinpantry_check_case(file, n, line, (size_t)len - 1, values) == BASINPANTRY_BUFFER_TOO_SHORT);

    replay(&u);
    own_side(&u);
    held_cells();
    excluded_cells(&u);
    return 0;
}
