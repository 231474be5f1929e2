/* Calls every function of the C interface with random, damaged and cut bytes, and looks for faults: see bindings/c/faults.

   Each lent slice, of bytes or of words, ends right before a page that may not be touched, or starts right after one, so that a read or write outside it stops
   the program. After each call what must not have changed is compared with a copy: after a refusal all that is lent but the values that it carries, what is lent
   to be read always, and of a buffer or of the values what is behind the bytes or words that were set. */
#define _GNU_SOURCE
#include <signal.h>
#include <stdio.h>
#include <stdlib.h>
#include <string.h>
#include <sys/mman.h>
#include <unistd.h>

#include "basinpantry.h"

/* ---- random numbers (xorshift64*), so that a run can be repeated */

static uint64_t state;
static uint64_t seed = 1;
static uint64_t turn;

static uint64_t next(void) {
    state ^= state >> 12;
    state ^= state << 25;
    state ^= state >> 27;
    return state * 2685821657736338717u;
}

static size_t below(size_t n) { return n == 0 ? 0 : (size_t)(next() >> 11) % n; }
static bool one_in(size_t n) { return below(n) == 0; }

static void fail(const char *why) {
    printf("fault: %s (seed %llu, input %llu)\n", why, (unsigned long long)seed, (unsigned long long)turn);
    exit(1);
}

static void on_signal(int number) {
    char text[128];
    int n = snprintf(text, sizeof text, "fault: signal %d (seed %llu, input %llu)\n", number, (unsigned long long)seed, (unsigned long long)turn);
    if (write(1, text, (size_t)n) < 0) _exit(2);
    _exit(1);
}

/* ---- slices between two pages that may not be touched */

#define PAGE 4096u
#define ROOM (36 * PAGE)
#define SLOTS 12

struct slice {
    uint8_t *at;
    size_t len;
};

/* What is lent to be read, a buffer to write to, or the words of the answer. */
enum use { READ, BUFFER, VALUES };

static uint8_t *slot[SLOTS];
static uint8_t copies[SLOTS][ROOM];
static struct slice lent[SLOTS];
static enum use uses[SLOTS];
static int used;
static bool plain;

static void make_slots(void) {
    for (int i = 0; i < SLOTS; i++) {
        uint8_t *p = mmap(NULL, ROOM + 2 * PAGE, PROT_NONE, MAP_PRIVATE | MAP_ANONYMOUS, -1, 0);
        if (p == MAP_FAILED || mprotect(p + PAGE, ROOM, PROT_READ | PROT_WRITE) != 0) {
            perror("mmap");
            exit(2);
        }
        slot[i] = p + PAGE;
    }
}

/* Room for so many bytes. With `plain` it is a block of its own, for valgrind to watch. */
static struct slice make_room(size_t len, enum use use) {
    int i = used++;
    if (i >= SLOTS || len > ROOM) fail("the driver lends too much");
    uint8_t *at = plain ? malloc(len == 0 ? 1 : len) : one_in(4) ? slot[i] : slot[i] + ROOM - len;
    lent[i] = (struct slice){at, len};
    uses[i] = use;
    return lent[i];
}

/* Lends a copy of these bytes. */
static struct slice lend(const uint8_t *bytes, size_t len, bool buffer) {
    struct slice s = make_room(len, buffer ? BUFFER : READ);
    memcpy(s.at, bytes, len);
    memcpy(copies[used - 1], bytes, len);
    return s;
}

/* Lends so many random words; pages and blocks begin and end where a word may. */
static uint64_t *lend_words(size_t n, enum use use) {
    struct slice s = make_room(8 * n, use);
    uint64_t *words = (uint64_t *)s.at;
    for (size_t i = 0; i < n; i++) words[i] = next();
    memcpy(copies[used - 1], s.at, s.len);
    return words;
}

static void give_back(void) {
    for (int i = 0; plain && i < used; i++) free(lent[i].at);
    used = 0;
}

/* Nothing that is lent to be read has changed, no buffer beyond its first `written[i]` bytes, and of the values none but the first `told`. */
static void see(bool refused, const size_t *written, size_t told) {
    for (int i = 0; i < used; i++) {
        size_t from = uses[i] == VALUES ? 8 * told : uses[i] == READ || refused ? 0 : written[i];
        if (from < lent[i].len && memcmp(lent[i].at + from, copies[i] + from, lent[i].len - from) != 0) fail("lent bytes have changed");
    }
}

/* ---- bytes that are nearly right */

static uint8_t pool[64][ROOM];
static size_t pool_len[64];

struct text {
    uint8_t *at;
    size_t len;
};

static void put(struct text *t, const void *bytes, size_t n) {
    if (t->len + n > ROOM) return;
    memcpy(t->at + t->len, bytes, n);
    t->len += n;
}

static void put_word(struct text *t, uint32_t x) {
    uint8_t b[4] = {(uint8_t)x, (uint8_t)(x >> 8), (uint8_t)(x >> 16), (uint8_t)(x >> 24)};
    put(t, b, 4);
}

static void put_random(struct text *t, size_t n, unsigned kinds) {
    for (size_t i = 0; i < n; i++) {
        uint8_t b = (uint8_t)below(kinds);
        put(t, &b, 1);
    }
}

/* A table or list of unsized items: the items were put behind one another at `from`, and end at ends[i]. */
static void put_header(struct text *t, size_t from, const size_t *ends, size_t n) {
    size_t body = t->len - from, head = 4 + 4 * n;
    if (t->len + head > ROOM) return;
    memmove(t->at + from + head, t->at + from, body);
    struct text h = {t->at, from};
    put_word(&h, (uint32_t)(head + body));
    for (size_t i = 0; i < n; i++) put_word(&h, (uint32_t)(head + (i == 0 ? 0 : ends[i - 1] - from)));
    t->len += head;
}

static void put_bytes(struct text *t, size_t n) {
    put_word(t, (uint32_t)n);
    put_random(t, n, 3);
}

static void put_script(struct text *t) {
    size_t from = t->len, ends[3];
    put_random(t, 32, 2 - below(2));
    ends[0] = t->len;
    put_random(t, 1, 2);
    ends[1] = t->len;
    put_bytes(t, below(2) * 20);
    ends[2] = t->len;
    put_header(t, from, ends, 3);
}

static void put_output(struct text *t) {
    size_t from = t->len, ends[3];
    put_random(t, 5, 256);
    put_random(t, 3, one_in(8) ? 256 : 1);
    ends[0] = t->len;
    put_script(t);
    ends[1] = t->len;
    if (one_in(2)) put_script(t);
    ends[2] = t->len;
    put_header(t, from, ends, 3);
}

static void put_sized(struct text *t, size_t n, size_t size) {
    put_word(t, (uint32_t)n);
    for (size_t i = 0; i < n; i++) put_random(t, size, one_in(2) ? 2 : 256);
}

static void put_list(struct text *t, size_t n, void (*item)(struct text *)) {
    size_t from = t->len, ends[80];
    for (size_t i = 0; i < n; i++) {
        item(t);
        ends[i] = t->len;
    }
    put_header(t, from, ends, n);
}

static void put_entry(struct text *t) { put_bytes(t, one_in(2) ? 16 : below(40)); }

static void put_transaction(struct text *t) {
    size_t from = t->len, ends[6], outer[2];
    put_word(t, (uint32_t)one_in(8));
    ends[0] = t->len;
    put_sized(t, below(4), 37);
    ends[1] = t->len;
    put_sized(t, below(3), 32);
    ends[2] = t->len;
    put_sized(t, one_in(16) ? 60 + below(8) : below(5), 44);
    ends[3] = t->len;
    put_list(t, below(5), put_output);
    ends[4] = t->len;
    put_list(t, below(5), put_entry);
    ends[5] = t->len;
    put_header(t, from, ends, 6);
    outer[0] = t->len;
    put_list(t, below(4), put_entry);
    outer[1] = t->len;
    put_header(t, from, outer, 2);
}

/* A table of something and data. */
static void put_with_data(struct text *t, void (*first)(struct text *)) {
    size_t from = t->len, ends[2];
    first(t);
    ends[0] = t->len;
    put_entry(t);
    ends[1] = t->len;
    put_header(t, from, ends, 2);
}

static void put_point(struct text *t) { put_random(t, 36, 256); }

static void put_record(struct text *t) {
    if (!one_in(6)) put_with_data(t, put_output);
}

static void put_token_cell(struct text *t) { put_with_data(t, put_point); }

static void put_update(struct text *t) {
    size_t from = t->len, ends[4];
    for (int k = 0; k < 3; k++) {
        size_t count = t->len;
        put_word(t, 0);
        if (k == 0) put_transaction(t);
        if (k == 1) put_list(t, below(4), put_record);
        if (k == 2) put_script(t);
        struct text c = {t->at, count};
        put_word(&c, (uint32_t)(t->len - count - 4));
        ends[k] = t->len;
    }
    put_random(t, 8, 4);
    ends[3] = t->len;
    put_header(t, from, ends, 4);
}

/* ---- an update whose parts fit together, so that it is judged to the end */

static uint8_t parts[8][ROOM];
enum part { OURS, PEER, LOCK, TYPE, SOURCE, LIVE, LIST, FILE_OF_CASE };
static struct text part[8];

/* A script with a first byte of its own. */
static void put_script_of(struct text *t, uint8_t first) {
    size_t from = t->len;
    put_script(t);
    t->at[from + 16] = first;
}

static void put_output_of(struct text *t, uint64_t capacity, uint8_t lock, bool typed) {
    size_t from = t->len, ends[3];
    put(t, &capacity, 8);
    ends[0] = t->len;
    if (lock == 1) put(t, part[LOCK].at, part[LOCK].len);
    else put_script_of(t, lock);
    ends[1] = t->len;
    if (typed) put(t, part[TYPE].at, part[TYPE].len);
    ends[2] = t->len;
    put_header(t, from, ends, 3);
}

static void put_amount(struct text *t, uint64_t low) {
    uint64_t amount[2] = {low, one_in(30) ? next() : 0};
    put_word(t, 16);
    put(t, amount, 16);
}

/* A transaction of so many items of each list, which are the same for the same `salt`; output 0 holds so much. */
static void put_version_of(struct text *t, uint64_t salt, const size_t *n, uint64_t capacity, uint64_t amount, bool typed) {
    uint64_t saved = state;
    size_t from = t->len, ends[6], outer[2];
    put_word(t, 0);
    ends[0] = t->len;
    for (size_t list = 0; list < 3; list++) {
        static const size_t sizes[3] = {37, 32, 44};
        state = salt + list;
        put_sized(t, n[list], sizes[list]);
        ends[1 + list] = t->len;
    }
    state = salt + 3;
    size_t at = t->len, item[8];
    for (size_t i = 0; i < n[3]; i++) {
        if (i == 0) put_output_of(t, capacity, 1, typed);
        else put_output_of(t, 6100000000u, 2, typed && one_in(2));
        item[i] = t->len;
    }
    put_header(t, at, item, n[3]);
    ends[4] = t->len;
    at = t->len;
    for (size_t i = 0; i < n[3]; i++) {
        if (i == 0 && !typed) put_bytes(t, 0);
        else put_amount(t, i == 0 ? amount : 3);
        item[i] = t->len;
    }
    put_header(t, at, item, n[3]);
    ends[5] = t->len;
    put_header(t, from, ends, 6);
    outer[0] = t->len;
    state = saved;
    put_list(t, below(3), put_entry);
    outer[1] = t->len;
    put_header(t, from, outer, 2);
}

static void put_case_item(struct text *t, uint32_t kind, const uint8_t *bytes, size_t n) {
    static const uint8_t zeros[4] = {0};
    put_word(t, kind << 28 | (uint32_t)n);
    put(t, bytes, n);
    put(t, zeros, (4 - n % 4) % 4);
}

static void make_update(void) {
    for (size_t i = 0; i < 8; i++) part[i] = (struct text){parts[i], 0};
    bool typed = one_in(2), funded = one_in(2);
    put_script_of(&part[LOCK], 1);
    if (typed) put_script_of(&part[TYPE], 9);
    put_script_of(&part[SOURCE], 3);
    uint64_t salt = next();
    size_t had[4] = {below(3), below(2), below(4), 1 + below(3)}, has[4];
    size_t added = one_in(12) ? 60 + below(6) : 1 + below(4);
    if (!funded) memset(had, 0, sizeof had);
    for (int i = 0; i < 4; i++) has[i] = had[i] + (one_in(10) ? below(10) : below(2));
    has[2] = had[2] + added;
    has[3] = had[3] + (had[3] == 0) + below(3);
    if (funded) put_version_of(&part[OURS], salt, had, 10000000000u, 5, typed);
    put_version_of(&part[PEER], salt, has, 10000000000u + below(5), 5 + below(5), typed);
    size_t ends[80];
    for (size_t i = 0; i < added; i++) {
        size_t from = part[LIVE].len, two[2];
        uint64_t capacity = (i == 0 ? 30000000000u : 500) + below(1000);
        put_output_of(&part[LIVE], capacity, one_in(60) ? 3 : 2, typed);
        two[0] = part[LIVE].len;
        put_amount(&part[LIVE], 10);
        two[1] = part[LIVE].len;
        put_header(&part[LIVE], from, two, 2);
        ends[i] = part[LIVE].len;
    }
    struct text *c = &part[FILE_OF_CASE];
    if (funded) put_case_item(c, 1, part[OURS].at, part[OURS].len);
    put_case_item(c, 2, part[PEER].at, part[PEER].len);
    put_case_item(c, 3, part[LOCK].at, part[LOCK].len);
    if (typed) put_case_item(c, 4, part[TYPE].at, part[TYPE].len);
    put_case_item(c, 5, part[SOURCE].at, part[SOURCE].len);
    put_case_item(c, 6, (const uint8_t *)"\1\0\0\0\0\0\0", 8);
    for (size_t i = 0; i < added; i++) {
        const uint8_t *record = part[LIVE].at + (i == 0 ? 0 : ends[i - 1]);
        size_t n = (size_t)(record[8] | record[9] << 8) - 12;
        put_case_item(c, 7, record + 12, n);
        put_case_item(c, 8, record + 12 + n + 4, 16);
    }
    put_header(&part[LIVE], 0, ends, added);
    /* the same update twice: the second adds nothing and brings no records that fit, unless the first was refused */
    for (size_t k = 0; k < 2; k++) {
        size_t from = part[LIST].len, four[4];
        static const enum part fields[3] = {PEER, LIVE, SOURCE};
        for (size_t f = 0; f < 3; f++) {
            put_word(&part[LIST], (uint32_t)part[fields[f]].len);
            put(&part[LIST], part[fields[f]].at, part[fields[f]].len);
            four[f] = part[LIST].len;
        }
        put(&part[LIST], "\1\0\0\0\0\0\0", 8);
        four[3] = part[LIST].len;
        put_header(&part[LIST], from, four, 4);
        ends[k] = part[LIST].len;
    }
    put_header(&part[LIST], 0, ends, 2);
}

/* What each stretch of the pool holds. */
enum kind { TRANSACTION, SCRIPT, RECORDS, POINTS, DEPS, CELLS, UPDATES, HELD, MAP, CASE, HEADERS, INPUTS, OUTPUTS, ENTRIES, KINDS };

static void put_held(struct text *t) {
    put_word(t, (uint32_t)below(one_in(8) ? 1000 : 257));
    for (size_t i = 0; i < 256; i++) {
        put_random(t, 36, 2);
        put_word(t, (uint32_t)below(3));
        put_random(t, 8, 2);
    }
}

/* An exclusion map with up to 64 entries, now and then with a number that makes it none; hashes of two bytes meet often. */
static void put_map(struct text *t) {
    size_t start = t->len, entries = below(65), left = 512;
    put_word(t, (uint32_t)(one_in(16) ? below(200) : entries));
    for (size_t i = 0; i < entries; i++) {
        size_t points = below(one_in(8) ? left + 1 : 9);
        bool committed = one_in(2);
        if (points > left) points = left;
        left -= points;
        uint8_t hash = (uint8_t)below(one_in(4) ? 2 : 256);
        for (size_t j = 0; j < 32; j++) put(t, &hash, 1);
        put_word(t, one_in(512) ? (uint32_t)next() : committed);
        put_word(t, committed || one_in(512) ? (uint32_t)below(300) : 0);
        put_word(t, 0);
        put_word(t, (uint32_t)(one_in(512) ? next() : points));
        put_random(t, 36 * points, 2);
    }
    put_random(t, BASINPANTRY_EXCLUSIONS_BYTES - (t->len - start), 2);
}

static void fill(enum kind k, struct text *t) {
    switch (k) {
    case TRANSACTION: put_transaction(t); break;
    case SCRIPT: put_script(t); break;
    case RECORDS: put_list(t, one_in(16) ? 64 : below(5), put_record); break;
    case POINTS: put_sized(t, below(one_in(16) ? 300 : 8), 36); break;
    case DEPS: put_sized(t, below(one_in(16) ? 300 : 8), 37); break;
    case CELLS: put_list(t, below(6), put_token_cell); break;
    case UPDATES: put_list(t, below(5), put_update); break;
    case HELD: put_held(t); break;
    case MAP: put_map(t); break;
    case HEADERS: put_sized(t, below(3), 32); break;
    case INPUTS: put_sized(t, below(5), 44); break;
    case OUTPUTS: put_list(t, below(4), put_output); break;
    case ENTRIES: put_list(t, below(4), put_entry); break;
    default: put_random(t, below(400), 256); break;
    }
}

/* Four stretches of each kind, made anew now and then. */
static void renew(size_t i) {
    struct text t = {pool[i], 0};
    fill((enum kind)(i % KINDS), &t);
    pool_len[i] = t.len;
}

static uint8_t scratch[ROOM];

/* Lends these bytes: as they are or, one in so many times, damaged or cut. */
static struct slice damaged(const uint8_t *bytes, size_t len, size_t often, bool buffer) {
    memcpy(scratch, bytes, len);
    if (one_in(often) && len > 0) {
        for (size_t n = 1 + below(3); n > 0; n--) {
            size_t at = below(len);
            switch (below(5)) {
            case 0: scratch[at] ^= (uint8_t)(1u << below(8)); break;
            case 1: scratch[at] = (uint8_t)next(); break;
            case 2: {
                static const uint32_t words[] = {0, 1, 4, 8, 0x7fffffff, 0x80000000, 0xffffffff, 0x40000000};
                uint32_t w = one_in(2) ? words[below(8)] : (uint32_t)(len + below(9) - 4);
                at &= ~(size_t)3;
                if (at + 4 <= len) memcpy(scratch + at, &w, 4);
                break;
            }
            case 3: len = below(len + 1); break;
            default: len = len + 8 < ROOM ? len + below(8) : len; break;
            }
            if (len == 0) break;
        }
    }
    if (one_in(60)) len = 0;
    return lend(scratch, len, buffer);
}

/* Bytes of a kind, now and then of another. */
static struct slice some(enum kind k, bool buffer) {
    size_t i = k + KINDS * below(4);
    if (one_in(40)) i = below(4 * KINDS);
    if (one_in(8)) renew(i);
    return damaged(pool[i], pool_len[i], 3, buffer);
}

/* A part of the update whose parts fit together. */
static struct slice fitting(enum part p) { return damaged(part[p].at, part[p].len, 20, false); }

static struct slice buffer(size_t most) {
    size_t len = one_in(3) ? below(most + 1) : most;
    for (size_t i = 0; i < len; i += 8) {
        uint64_t x = next();
        memcpy(scratch + i, &x, 8);
    }
    return lend(scratch, len, true);
}

/* As many bytes as are written, or one less. */
static struct slice near(size_t n) { return lend(scratch, n == 0 ? 0 : n - below(2), true); }

/* ---- one call */

static uint64_t *values;
static size_t told;

/* Lends the four words of an answer. */
static uint64_t *four(void) { return values = lend_words(BASINPANTRY_VALUES, VALUES); }

/* The numbers that a call may answer, one bit each, and how many values it tells where it is not refused: no other is set, for `see` to look at. */
static void answered(uint32_t r, uint32_t allowed, size_t tells) {
    if (r > 31 || (allowed >> r & 1) == 0) fail("an answer that the header does not name");
    told = r == 0 ? tells : r == BASINPANTRY_PEER_FUNDING_FEE_TOO_LOW ? 4 : r == BASINPANTRY_PEER_INPUT_USES_OUR_FUNDING_LOCK ? 1 : 0;
}

/* How many bytes a list of out points has that was written to the start of a buffer. */
static size_t list_bytes(struct slice s) {
    uint32_t n;
    memcpy(&n, s.at, 4);
    if (n > (s.len - 4) / BASINPANTRY_OUT_POINT_BYTES) fail("a list that is longer than its buffer");
    return 4 + (size_t)n * BASINPANTRY_OUT_POINT_BYTES;
}

#define BITS(...) bits((const int[]){__VA_ARGS__, -1})
static uint32_t bits(const int *n) {
    uint32_t b = 1;
    for (; *n >= 0; n++) b |= 1u << *n;
    return b;
}

#define S(x) (x).at, (x).len
#define CALLS 29

static unsigned long long counts[CALLS], accepted[CALLS];

static void call(size_t which) {
    uint32_t r = 0;
    size_t written[SLOTS] = {0};
    told = 0;
    switch (which) {
    case 0:
    case 1:
    case 2: {
        if (one_in(4)) make_update();
        struct slice o = fitting(OURS), p = fitting(PEER), l = fitting(LOCK), u = fitting(TYPE), s = fitting(SOURCE), c = fitting(LIVE);
        r = basinpantry_update_for_peer(S(o), S(p), S(l), S(u), S(s), below(1100), S(c), four());
        answered(r, BITS(1, 2, 3, 4, 5, 6, 7, 8), 4);
        break;
    }
    case 3: {
        struct slice o = some(TRANSACTION, false), p = some(TRANSACTION, false), l = some(SCRIPT, false), u = some(SCRIPT, false), s = some(SCRIPT, false),
                     c = some(RECORDS, false);
        r = basinpantry_update_for_peer(S(o), S(p), S(l), S(u), S(s), below(3000), S(c), four());
        answered(r, BITS(1, 2, 3, 4, 5, 6, 7, 8), 4);
        break;
    }
    case 4: {
        struct slice s = some((enum kind)below(KINDS), false);
        r = !(basinpantry_is_transaction(S(s)) | basinpantry_is_script(S(s)) | basinpantry_is_records(S(s)) | basinpantry_is_out_points(S(s)));
        break;
    }
    case 5: {
        static uint8_t whole[ROOM];
        struct slice t = some(TRANSACTION, false);
        uint32_t list = (uint32_t)below(8);
        size_t i = one_in(8) ? (size_t)next() : below(4);
        uint64_t size[BASINPANTRY_VALUES];
        uint32_t there = basinpantry_item(S(t), list, i, whole, sizeof whole, size);
        struct slice out = there == 0 && one_in(2) ? near((size_t)size[0]) : buffer(4096);
        r = basinpantry_item(S(t), list, i, S(out), four());
        answered(r, BITS(1, 3, 13), 1);
        if (there == 0 ? (out.len < size[0]) != (r == 13) : r != there) fail("another answer by the room");
        if (r == 0 && values[0] > out.len) fail("more bytes than the buffer has");
        if (r == 0) written[1] = (size_t)values[0];
        break;
    }
    case 6: {
        struct slice t = some(TRANSACTION, false), out = one_in(3) ? near(t.len) : buffer(8192);
        r = basinpantry_rewrite(S(t), S(out), four());
        answered(r, BITS(1, 13), 1);
        if (r == 0 && (values[0] != t.len || memcmp(out.at, t.at, t.len) != 0)) fail("what is written again differs");
        if (r == 0) written[1] = (size_t)values[0];
        break;
    }
    case 7: {
        struct slice d = some(DEPS, false), h = some(HEADERS, false), i = some(INPUTS, false), o = some(OUTPUTS, false), a = some(ENTRIES, false),
                     x = some(ENTRIES, false), out = buffer(16384);
        r = basinpantry_write_transaction((uint32_t)next(), S(d), S(h), S(i), S(o), S(a), S(x), S(out), four());
        answered(r, BITS(3, 13), 1);
        if (r == 0 && !basinpantry_is_transaction(out.at, (size_t)values[0])) fail("what is written is no transaction");
        if (r == 0) written[6] = (size_t)values[0];
        break;
    }
    case 8: {
        struct slice f = one_in(4) ? some(CASE, false) : fitting(FILE_OF_CASE), line = buffer(120);
        /* now and then as long as its line, or a byte less */
        uint8_t whole[BASINPANTRY_LINE_BYTES];
        uint64_t room[BASINPANTRY_VALUES];
        if (basinpantry_check_case(S(f), whole, sizeof whole, room) != 0 || room[0] > sizeof whole) fail("a line of another length");
        if (one_in(2)) line = near((size_t)room[0]);
        r = basinpantry_check_case(S(f), S(line), four());
        answered(r, BITS(13), 1);
        if ((line.len < room[0]) != (r == 13)) fail("a line that fits is refused, or one that does not is written");
        if (r == 0 && (values[0] != room[0] || memcmp(line.at, whole, (size_t)room[0]) != 0)) fail("another line");
        if (r == 0) written[used - 2] = (size_t)values[0];
        break;
    }
    case 9: {
        bool fits = !one_in(4);
        struct slice t = fits ? fitting(OURS) : some(TRANSACTION, false), l = fits ? fitting(LOCK) : some(SCRIPT, false), u = fits ? fitting(TYPE) : some(SCRIPT, false),
                     up = fits ? fitting(LIST) : some(UPDATES, false);
        size_t words = one_in(4) ? below(20) : BASINPANTRY_ANSWER_WORDS * 64;
        uint64_t *answers = lend_words(words, BUFFER);
        size_t taken = 0;
        r = basinpantry_replay(S(t), S(l), S(u), S(up), answers, words, four());
        answered(r, BITS(3, 13), 3);
        if (r != 0) break;
        if (values[0] > words / BASINPANTRY_ANSWER_WORDS) fail("more answers than there is room for");
        for (size_t k = 0; k < values[0]; k++) {
            uint64_t number = answers[BASINPANTRY_ANSWER_WORDS * k];
            if (number > BASINPANTRY_PEER_FUNDING_FEE_TOO_LOW) fail("an answer that the header does not name");
            taken += number == 0;
        }
        bool in_force = values[2] == 0 || (values[2] <= values[0] && answers[BASINPANTRY_ANSWER_WORDS * (values[2] - 1)] == 0);
        if (taken != values[1] || !in_force || (values[2] == 0) != (taken == 0)) fail("what is accepted and what is in force differ");
        written[4] = 8 * BASINPANTRY_ANSWER_WORDS * (size_t)values[0];
        break;
    }
    case 10: {
        struct slice t = some(TRANSACTION, false), u = some(SCRIPT, false);
        uint64_t top = one_in(4) ? next() : 0;
        r = basinpantry_build_funding_cell(S(t), S(u), next() >> below(64), top, next() >> below(64), next() >> below(64), top, next() >> below(64), four());
        answered(r, BITS(1, 3, 7), 3);
        break;
    }
    case 11: {
        struct slice c = some(CELLS, false), u = some(SCRIPT, false), s = some(SCRIPT, false), out = buffer(400);
        r = basinpantry_build_udt_inputs_outputs(S(c), S(u), S(s), next() >> below(64), one_in(4) ? next() : 0, S(out), four());
        answered(r, BITS(3, 9, 10, 12, 13), 4);
        /* the change output, where there is change */
        if (r == 0 && values[3] != 0) written[3] = 24 + s.len + u.len;
        break;
    }
    case 12:
    case 13: {
        struct slice t = some(TRANSACTION, false), l = some(SCRIPT, false), u = some(SCRIPT, false), s = some(SCRIPT, false), c = some(CELLS, false),
                     d = some(DEPS, false), k = lend(pool[DEPS] + 4, one_in(3) ? 0 : 37, false), e = some(DEPS, false), out = buffer(16384);
        r = basinpantry_build_base(S(t), S(l), S(u), S(s), S(c), S(d), S(k), S(e), next() >> below(64), 0, next() >> 8, next() >> 8, 0, next() >> 8, S(out),
                                   four());
        answered(r, BITS(1, 3, 7, 9, 10, 11, 12, 13), 1);
        if (r == 0 && !basinpantry_is_transaction(out.at, (size_t)values[0])) fail("a base that is no transaction");
        if (r == 0) written[8] = (size_t)values[0];
        break;
    }
    case 26: {
        struct slice t = some(TRANSACTION, false);
        r = basinpantry_version(S(t), four());
        answered(r, BITS(1), 1);
        if ((r == 0) != basinpantry_is_transaction(S(t))) fail("a transaction without a version, or a version without one");
        break;
    }
    case 27: {
        struct slice t = some(TRANSACTION, false);
        uint32_t list = one_in(8) ? (uint32_t)next() : (uint32_t)below(7);
        r = basinpantry_item_count(S(t), list, four());
        answered(r, BITS(1, 3), 1);
        if (r != (!basinpantry_is_transaction(S(t)) ? 1u : list > BASINPANTRY_WITNESSES ? 3u : 0u)) fail("another answer for a list");
        break;
    }
    case 28: {
        /* as many words as the items need, one less or more, or none */
        struct slice t = some(TRANSACTION, false);
        uint32_t list = one_in(8) ? (uint32_t)next() : (uint32_t)below(7);
        uint64_t count[BASINPANTRY_VALUES] = {0};
        uint32_t there = basinpantry_item_count(S(t), list, count);
        size_t needed = BASINPANTRY_PLACE_WORDS * (size_t)count[0], words = one_in(4) ? needed + below(5) : needed - (needed != 0 && one_in(3));
        uint64_t *places = lend_words(words, BUFFER);
        r = basinpantry_items(S(t), list, places, words, four());
        answered(r, BITS(1, 3, 13), 1);
        if (r != (there != 0 ? there : words < needed ? 13u : 0u)) fail("another answer by the words");
        if (r != 0) break;
        if (values[0] != count[0]) fail("another number of items");
        for (size_t i = 0; i < count[0]; i++) {
            static uint8_t item[ROOM];
            uint64_t start = places[2 * i], len = places[2 * i + 1], size[BASINPANTRY_VALUES];
            if (start > t.len || len > t.len - start) fail("an item that stands outside");
            if (basinpantry_item(S(t), list, i, item, sizeof item, size) != 0 || size[0] != len || memcmp(item, t.at + start, (size_t)len) != 0)
                fail("another item");
        }
        written[1] = 8 * needed;
        break;
    }
    default: {
        bool holds = which < 20;
        struct slice t = some(holds ? HELD : MAP, true), a = some(POINTS, false), b = some(POINTS, false);
        struct slice h = lend(pool[POINTS] + 4, one_in(8) ? below(40) : 32, false), x = some(TRANSACTION, false);
        struct slice o = buffer(one_in(4) ? 24000 : 600), q = buffer(600);
        uint64_t time = next() >> below(64);
        uint32_t allowed = BITS(1, 3, 13, 14, 15);
        switch (which) {
        case 14: r = basinpantry_hold_funding(S(t), next() >> 60, S(a)); break;
        case 15: r = basinpantry_hold_for_watchtower(S(t), S(a), time); break;
        case 16: r = basinpantry_release_for_watchtower(S(t), S(a)); break;
        case 17: r = basinpantry_lock_held(S(t), time, S(o)); break;
        case 18: r = basinpantry_unavailable(S(t), S(a), S(b), time, S(o)); break;
        case 19: r = basinpantry_take(S(t), S(a), S(b), one_in(2), next() >> 60, time, S(o), S(q)); break;
        case 20: r = basinpantry_exclusions_add(S(t), S(h), S(x)); break;
        case 21: r = basinpantry_exclusions_commit(S(t), S(h), time); break;
        case 22: r = basinpantry_exclusions_remove(S(t), S(h)); break;
        case 23: {
            struct slice k = lend(pool[POINTS] + 40, one_in(8) ? below(40) : 32, false);
            r = basinpantry_exclusions_migrate_funding_tx(S(t), S(h), S(k), S(x));
            break;
        }
        case 24: r = basinpantry_exclusions_truncate(S(t), time); break;
        default: r = basinpantry_exclusions_apply(S(t), S(o)); break;
        }
        if (r > 31 || (allowed >> r & 1) == 0) fail("an answer that the header does not name");
        uint32_t first = (which == 20 || which == 23) && x.len != 0 && !basinpantry_is_transaction(S(x)) ? 1 : 3;
        if (first == 1 && r != 1) fail("a transaction that can't be read, and not 1");
        if (t.len != (holds ? BASINPANTRY_HELD_BYTES : BASINPANTRY_EXCLUSIONS_BYTES) && r != first) fail("a table of another length, and not 3");
        if (r != 0) break;
        bool reads = which == 18 || which == 25;
        written[0] = reads ? 0 : t.len;
        if (reads || which == 17 || which == 19) written[5] = list_bytes(o);
        if (which == 19) written[6] = list_bytes(q);
    }
    }
    see(r != 0 || which == 4, written, told);
    counts[which]++;
    accepted[which] += r == 0;
}

static const char *names[CALLS] = {"update_for_peer", "update_for_peer", "update_for_peer", "update_for_peer", "is_transaction and the other tests", "item", "rewrite",
                                   "write_transaction", "check_case", "replay", "build_funding_cell", "build_udt_inputs_outputs", "build_base", "build_base", "hold_funding",
                                   "hold_for_watchtower", "release_for_watchtower", "lock_held", "unavailable", "take", "exclusions_add", "exclusions_commit",
                                   "exclusions_remove", "exclusions_migrate_funding_tx", "exclusions_truncate", "exclusions_apply",
                                   "version", "item_count", "items"};

int main(int argc, char **argv) {
    unsigned long long inputs = argc > 1 ? strtoull(argv[1], NULL, 10) : 10000000;
    seed = argc > 2 ? strtoull(argv[2], NULL, 10) : 1;
    plain = argc > 3 && strcmp(argv[3], "plain") == 0;
    state = seed * 0x9e3779b97f4a7c15u + 1;
    signal(SIGSEGV, on_signal);
    signal(SIGBUS, on_signal);
    signal(SIGILL, on_signal);
    signal(SIGFPE, on_signal);
    make_slots();
    for (size_t i = 0; i < 4 * KINDS; i++) renew(i);
    make_update();
    for (turn = 0; turn < inputs; turn++) {
        call(below(CALLS));
        give_back();
    }
    for (size_t i = 0; i < CALLS; i++) {
        if (i > 0 && strcmp(names[i], names[i - 1]) == 0) continue;
        unsigned long long n = 0, a = 0;
        for (size_t k = 0; k < CALLS; k++)
            if (strcmp(names[i], names[k]) == 0) n += counts[k], a += accepted[k];
        printf("%-36s %10llu inputs, %10llu not refused\n", names[i], n, a);
    }
    printf("%llu inputs, 0 faults\n", inputs);
    return 0;
}
