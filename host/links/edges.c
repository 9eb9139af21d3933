/*
 * What lotlog.h allows of pointers: NULL with length 0 for every slice, and any alignment.
 *
 * Each call of the table is made with all its lent pieces at aligned addresses. Then pieces are moved
 * by 1 to 15 bytes, in every choice of pieces. And slices are made empty, in every choice of slices:
 * once at good pointers, once at NULL. Each time the number, the answer and all lent bytes must be the
 * same, and the bytes around a lent piece must stay. All three numbers of an answer are those of the
 * table: where nothing is to be said they are 0, and a broken proof has its place there.
 */
#include <stdio.h>
#include <string.h>

#include "lotlog.h"

enum {
    ALIGNED = 16,               /* an aligned address is a multiple of this */
    GUARD = 16,                 /* at least so many bytes guard a piece on each side */
    FILL = 0xA5,                /* the guards' bytes, and an output's before a call */
    PIECES = 8,                 /* a call is lent no more pieces than this */
    MOST = LOT_TRIE_PROOF_MOST, /* nor a longer one */
    LOG = 7,
    COUNT = 5 /* the log's elements; the second is an entry of no bytes */
};

/* The material. Each proof has the length of its path: 1, 2, 4, 5, then 2, 4, 5, then 4, 5 alone. */
static uint8_t entry[200], store[LOT_STORE_BYTES(COUNT + 1)], digest[LOT_DIGEST_BYTES];
static uint8_t proof[352], changed[352], proof_2[288], advance[192];
static uint8_t bad_link[352], bad_row[192]; /* proof and advance with a bit turned in 4's component */
static uint8_t held_2[LOT_HELD_BYTES], held_5[LOT_HELD_BYTES];
static uint8_t file_5[LOT_HELD_FILE_LEAST + 2 * LOT_DIGEST_BYTES]; /* 5 has two rows in use */

/* Stores to compare with that one: the first two elements alone, all of them with a bit of the last T
   turned, and the store of another log. */
static uint8_t store_2[LOT_STORE_BYTES(2)], changed_store[sizeof store], other_log[sizeof store];

/* The material of the trie, where the entry is a key: its handle and another with the last bit turned,
   both in one list, where it is present; and the other alone, where it is absent by 256 siblings. */
static uint8_t handle[LOT_DIGEST_BYTES], handles[2 * LOT_DIGEST_BYTES], other[LOT_DIGEST_BYTES];
static uint8_t root[LOT_DIGEST_BYTES], other_root[LOT_DIGEST_BYTES], empty_root[LOT_DIGEST_BYTES];
static uint8_t presence[LOT_TRIE_PROOF_MOST], absence[LOT_TRIE_PROOF_MOST];

/* The material of a van: A(0), its log of two entries, the entry and a closing one of no bytes, and the
   same with a bit of the closing entry's seal turned. */
static uint8_t key_0[LOT_SEAL_KEY_BYTES], chain_0[LOT_DIGEST_BYTES];
static uint8_t sealed[LOT_SEALED_BYTES(sizeof entry) + LOT_SEALED_BYTES(0)], bad_seal[sizeof sealed];

/* A call as it is made: the pieces that it is lent, and the numbers that it takes. */
struct lending {
    uint8_t *at[PIECES];
    size_t length[PIECES];
    const uint64_t *number;
};

/* C leaves a misaligned `uint64_t *` undefined. But nothing in C reads or writes through it: the callee
   is not C and asks no alignment, and what it wrote is read back as bytes. */
#define CALL(name, ...) \
    static uint64_t call_##name(const struct lending *a) { return lot_##name(__VA_ARGS__); }
#define SLICE(k) a->at[k], a->length[k]
#define ARRAY(k) a->at[k]
#define ANSWER(k) (uint64_t *)(void *)a->at[k]
#define FIRST a->number[0]
#define BOTH a->number[0], a->number[1]

CALL(hash, SLICE(0), ARRAY(1))
CALL(start, SLICE(0), FIRST)
CALL(count, SLICE(0), ANSWER(1))
CALL(append, SLICE(0), SLICE(1), FIRST, ANSWER(2))
CALL(digest_at, SLICE(0), FIRST, ARRAY(1))
CALL(audit, SLICE(0), ANSWER(1))
CALL(compare, SLICE(0), SLICE(1), ANSWER(2))
CALL(build_membership, SLICE(0), BOTH, SLICE(1), ANSWER(2))
CALL(check_membership, SLICE(0), BOTH, ARRAY(1), SLICE(2), ANSWER(3))
CALL(dispute, SLICE(0), SLICE(1), SLICE(2), SLICE(3), BOTH, ARRAY(4), SLICE(5), SLICE(6), ANSWER(7))
CALL(differing, SLICE(0), SLICE(1), BOTH, ANSWER(2))
CALL(held_at, SLICE(0), FIRST, ARRAY(1))
CALL(held_start, FIRST, ARRAY(0))
CALL(build_advancement, SLICE(0), BOTH, SLICE(1), ANSWER(2))
CALL(check_advancement, ARRAY(0), FIRST, ARRAY(1), SLICE(2), ANSWER(3))
CALL(held_write, ARRAY(0), SLICE(1), ANSWER(2))
CALL(held_read, SLICE(0), ARRAY(1))
CALL(handle, SLICE(0), ARRAY(1))
CALL(trie_root, SLICE(0), ARRAY(1))
CALL(prove_presence, SLICE(0), SLICE(1), SLICE(2), ANSWER(3))
CALL(prove_absence, SLICE(0), SLICE(1), SLICE(2), ANSWER(3))
CALL(check_presence, SLICE(0), ARRAY(1), SLICE(2))
CALL(check_absence, SLICE(0), ARRAY(1), SLICE(2))
CALL(trie_clash, SLICE(0), ARRAY(1), SLICE(2), SLICE(3), SLICE(4), SLICE(5), ANSWER(6))
CALL(mac, SLICE(0), SLICE(1), ARRAY(2))
CALL(seal_add, SLICE(0), ARRAY(1), (uint32_t)FIRST, SLICE(2), SLICE(3), ANSWER(4))
CALL(seal_check, ARRAY(0), SLICE(1), ANSWER(2))

/* A piece of lent memory: what it holds before the call, or NULL for an output; its length; and the
   number of the call if this piece is a slice and it alone is empty. */
struct piece {
    enum { NO_PIECE, AN_ARRAY, AN_ANSWER, A_SLICE } kind;
    const uint8_t *bytes;
    size_t length;
    uint64_t if_empty;
};

#define IN(bytes, if_empty) {A_SLICE, bytes, sizeof bytes, if_empty}
#define OUT(length, if_empty) {A_SLICE, NULL, length, if_empty}
#define NOTHING {A_SLICE, NULL, 0, 0}
#define FIXED(bytes) {AN_ARRAY, bytes, sizeof bytes, 0}
#define FIXED_OUT(length) {AN_ARRAY, NULL, length, 0}
#define TOLD {AN_ANSWER, NULL, LOT_ANSWER_NUMBERS * sizeof(uint64_t), 0}

/* What a call of the table returns. Broken proofs and another log's store are refused. Else the clash
   alone is not done: under SHA-256 no one can make the two accepted proofs that it takes. So it is
   refused as late as it can be, when both have been read. */
enum {
    DONE = 0,
    ROW_DIFFERS = 9,
    LINK_DIFFERS = 10,
    NOT_ACCEPTED = 13,
    ENTRY_WRONG = 24,
    LOGS_DIFFER = 26
};

/* A call: the numbers that it takes, the number that it returns, its answer, and what it is lent. */
struct test {
    const char *name;
    uint64_t (*make)(const struct lending *);
    uint64_t number[2], returned, told[LOT_ANSWER_NUMBERS];
    struct piece pieces[PIECES];
};

static const struct test tests[] = {
    {"hash", call_hash, {0, 0}, DONE, {0}, {IN(entry, 0), FIXED_OUT(32)}},
    {"start", call_start, {LOG, 0}, DONE, {0}, {OUT(sizeof store, 6)}},
    {"count", call_count, {0, 0}, DONE, {COUNT}, {IN(store, 1), TOLD}},
    {"append", call_append, {LOT_APPEND_WHOLE, 0}, DONE, {COUNT + 1},
     {IN(store, 1), IN(entry, 0), TOLD}},
    {"digest at", call_digest_at, {COUNT, 0}, DONE, {0}, {IN(store, 1), FIXED_OUT(32)}},
    {"audit", call_audit, {0, 0}, DONE, {COUNT}, {IN(store, 1), TOLD}},
    {"compare", call_compare, {0, 0}, DONE, {0}, {IN(store, 1), IN(store, 1), TOLD}},
    {"compare with the start", call_compare, {0, 0}, DONE, {2}, {IN(store, 1), IN(store_2, 1), TOLD}},
    {"compare the start", call_compare, {0, 0}, DONE, {1}, {IN(store_2, 1), IN(store, 1), TOLD}},
    {"compare with a changed store", call_compare, {0, 0}, DONE, {3, COUNT, 63},
     {IN(store, 1), IN(changed_store, 1), TOLD}},
    {"compare with another log's store", call_compare, {0, 0}, LOGS_DIFFER, {0},
     {IN(store, 1), IN(other_log, 1), TOLD}},
    {"build membership", call_build_membership, {1, COUNT}, DONE, {sizeof proof},
     {IN(store, 1), OUT(sizeof proof, 6), TOLD}},
    {"check membership", call_check_membership, {1, COUNT}, DONE, {3},
     {IN(entry, 8), FIXED(digest), IN(proof, 7), TOLD}},
    {"check membership of no bytes", call_check_membership, {2, COUNT}, DONE, {2},
     {NOTHING, FIXED(digest), IN(proof_2, 7), TOLD}},
    {"check membership of a broken proof", call_check_membership, {1, COUNT}, LINK_DIFFERS, {1, 4, 1},
     {IN(entry, 8), FIXED(digest), IN(bad_link, 7), TOLD}},
    {"dispute", call_dispute, {1, COUNT}, DONE, {1},
     {IN(entry, 13), IN(proof, 13), IN(entry, 13), IN(proof, 13), FIXED(digest),
      OUT(LOT_DISPUTE_LEAST, 6), OUT(LOT_DISPUTE_LEAST, 6), TOLD}},
    {"dispute of no bytes", call_dispute, {2, COUNT}, DONE, {1},
     {NOTHING, IN(proof_2, 13), NOTHING, IN(proof_2, 13), FIXED(digest),
      OUT(LOT_DISPUTE_LEAST, 6), OUT(LOT_DISPUTE_LEAST, 6), TOLD}},
    {"dispute over a broken proof", call_dispute, {1, COUNT}, NOT_ACCEPTED, {2},
     {IN(entry, 13), IN(proof, 13), IN(entry, 13), IN(bad_link, 13), FIXED(digest),
      OUT(LOT_DISPUTE_LEAST, 6), OUT(LOT_DISPUTE_LEAST, 6), TOLD}},
    {"differing", call_differing, {1, COUNT}, DONE, {sizeof proof - 64, 64},
     {IN(proof, 0), IN(changed, 0), TOLD}},
    {"held at", call_held_at, {COUNT, 0}, DONE, {0}, {IN(store, 1), FIXED_OUT(LOT_HELD_BYTES)}},
    {"held start", call_held_start, {LOG, 0}, DONE, {0}, {FIXED_OUT(LOT_HELD_BYTES)}},
    {"build advancement", call_build_advancement, {2, COUNT}, DONE, {sizeof advance},
     {IN(store, 1), OUT(sizeof advance, 6), TOLD}},
    {"build advancement of 0 hops", call_build_advancement, {COUNT, COUNT}, DONE, {0},
     {IN(store, 1), NOTHING, TOLD}},
    {"check advancement", call_check_advancement, {COUNT, 0}, DONE, {2},
     {FIXED(held_2), FIXED(digest), IN(advance, 7), TOLD}},
    {"check advancement of a broken proof", call_check_advancement, {COUNT, 0}, ROW_DIFFERS, {0, 4, 1},
     {FIXED(held_2), FIXED(digest), IN(bad_row, 7), TOLD}},
    {"check advancement of 0 hops", call_check_advancement, {COUNT, 0}, DONE, {0},
     {FIXED(held_5), FIXED(digest), NOTHING, TOLD}},
    {"held write", call_held_write, {0, 0}, DONE, {sizeof file_5},
     {FIXED(held_5), OUT(sizeof file_5, 6), TOLD}},
    {"held read", call_held_read, {0, 0}, DONE, {0}, {IN(file_5, 18), FIXED_OUT(LOT_HELD_BYTES)}},
    {"handle", call_handle, {0, 0}, DONE, {0}, {IN(entry, 0), FIXED_OUT(32)}},
    {"trie root", call_trie_root, {0, 0}, DONE, {0}, {IN(handles, 0), FIXED_OUT(32)}},
    {"prove presence", call_prove_presence, {0, 0}, DONE, {sizeof presence},
     {IN(handles, 15), IN(entry, 15), OUT(sizeof presence, 6), TOLD}},
    {"prove absence", call_prove_absence, {0, 0}, DONE, {sizeof absence},
     {IN(other, 0), IN(entry, 0), OUT(sizeof absence, 6), TOLD}},
    {"prove absence of no bytes from nothing", call_prove_absence, {0, 0}, DONE, {0},
     {NOTHING, NOTHING, NOTHING, TOLD}},
    {"check presence", call_check_presence, {0, 0}, DONE, {0},
     {IN(entry, 17), FIXED(root), IN(presence, 16)}},
    {"check absence", call_check_absence, {0, 0}, DONE, {0},
     {IN(entry, 17), FIXED(other_root), IN(absence, 17)}},
    {"check absence of no bytes from nothing", call_check_absence, {0, 0}, DONE, {0},
     {NOTHING, FIXED(empty_root), NOTHING}},
    {"trie clash", call_trie_clash, {0, 0}, NOT_ACCEPTED, {2},
     {IN(entry, 13), FIXED(root), IN(presence, 13), IN(absence, 13), OUT(LOT_CLASH_LEAST, 6),
      OUT(LOT_CLASH_LEAST, 6), TOLD}},
    {"mac", call_mac, {0, 0}, DONE, {0}, {IN(entry, 0), IN(entry, 0), FIXED_OUT(32)}},
    {"seal add", call_seal_add, {2, 0}, DONE, {LOT_SEALED_BYTES(sizeof entry)},
     {IN(key_0, 6), FIXED(chain_0), IN(entry, 0), OUT(LOT_SEALED_BYTES(sizeof entry), 6), TOLD}},
    {"seal add of a closing entry of no bytes", call_seal_add, {LOT_SEAL_CLOSING, 0}, DONE,
     {LOT_SEALED_BYTES(0)},
     {IN(key_0, 6), FIXED(chain_0), NOTHING, OUT(LOT_SEALED_BYTES(0), 6), TOLD}},
    {"seal check", call_seal_check, {0, 0}, DONE, {2}, {FIXED(key_0), IN(sealed, 25), TOLD}},
    {"seal check of a broken log", call_seal_check, {0, 0}, ENTRY_WRONG, {1},
     {FIXED(key_0), IN(bad_seal, 25), TOLD}},
};

/* How a call is made: which pieces are empty, NULL and moved, with bit k for piece k. */
struct way {
    unsigned empty, null, moved;
    int by;
};

/* What came of a call: its number, and the lent pieces after it. */
struct outcome {
    uint64_t number;
    uint8_t lent[PIECES][MOST];
};

/* Each piece has a room, long enough for an aligned address, an offset, and guards on both sides. */
static uint8_t rooms[PIECES][GUARD + 2 * (ALIGNED - 1) + MOST + GUARD];
static unsigned calls;

static int has(unsigned choice, int k) { return choice >> k & 1; }

/* Says what is wrong with a call. */
static int wrong(const struct test *test, const struct way *way, const char *what) {
    fprintf(stderr, "%s (empty %#x, NULL %#x, moved %#x by %d): %s\n", test->name, way->empty,
            way->null, way->moved, way->by, what);
    return 0;
}

/* Lays out what a call is lent. */
static void lend(const struct test *test, const struct way *way, struct lending *a) {
    memset(rooms, FILL, sizeof rooms);
    a->number = test->number;
    for (int k = 0; k < PIECES; k++) {
        const struct piece *piece = &test->pieces[k];
        uint8_t *from = rooms[k] + GUARD;
        from += (ALIGNED - (uintptr_t)from % ALIGNED) % ALIGNED + (has(way->moved, k) ? way->by : 0);
        a->length[k] = has(way->empty, k) ? 0 : piece->length;
        if (piece->bytes != NULL) memcpy(from, piece->bytes, a->length[k]);
        a->at[k] = has(way->null, k) ? NULL : from;
    }
}

/* Whether the bytes around a piece are as they were. */
static int guarded(const struct lending *a, int k) {
    for (uint8_t *byte = rooms[k]; byte < rooms[k] + sizeof rooms[k]; byte++) {
        int lent = a->at[k] != NULL && byte >= a->at[k] && byte < a->at[k] + a->length[k];
        if (!lent && *byte != FILL) return 0;
    }
    return 1;
}

/* Makes a call and keeps what came of it. */
static int make(const struct test *test, const struct way *way, struct outcome *outcome) {
    struct lending a;
    lend(test, way, &a);
    memset(outcome, 0, sizeof *outcome);
    outcome->number = test->make(&a);
    for (int k = 0; k < PIECES; k++) {
        if (!guarded(&a, k)) return wrong(test, way, "a byte beside a lent piece is changed");
        if (a.length[k] > 0) memcpy(outcome->lent[k], a.at[k], a.length[k]);
    }
    return 1;
}

/* Makes a call and compares what came of it. */
static int agrees(const struct test *test, const struct way *way, const struct outcome *expected) {
    static struct outcome outcome;
    calls++;
    if (!make(test, way, &outcome)) return 0;
    if (outcome.number != expected->number) return wrong(test, way, "another number");
    if (memcmp(outcome.lent, expected->lent, sizeof outcome.lent) == 0) return 1;
    return wrong(test, way, "other bytes");
}

/* Whether a choice has only pieces of the call that are of a kind, or of the kinds after it. */
static int only(const struct test *test, unsigned choice, int kind) {
    for (int k = 0; k < PIECES; k++)
        if (has(choice, k) && (int)test->pieces[k].kind < kind) return 0;
    return 1;
}

/* Every choice of pieces at every offset; that at offset 0 is the call to compare with. */
static int misaligned(const struct test *test) {
    static struct outcome aligned;
    struct way way = {0, 0, 0, 0};
    if (!make(test, &way, &aligned)) return 0;
    if (aligned.number != test->returned) return wrong(test, &way, "not the number of the table");
    for (int k = 0; k < PIECES; k++)
        if (test->pieces[k].kind == AN_ANSWER &&
            memcmp(aligned.lent[k], test->told, sizeof test->told) != 0)
            return wrong(test, &way, "not the answer of the table");
    for (way.moved = 1; way.moved < 1u << PIECES; way.moved++)
        if (only(test, way.moved, AN_ARRAY))
            for (way.by = 1; way.by < ALIGNED; way.by++)
                if (!agrees(test, &way, &aligned)) return 0;
    return 1;
}

/* Every choice of slices, empty at a good pointer and then at NULL. */
static int null(const struct test *test) {
    static struct outcome good;
    struct way way = {0, 0, 0, 0};
    for (way.empty = 1; way.empty < 1u << PIECES; way.empty++) {
        if (!only(test, way.empty, A_SLICE)) continue;
        way.null = 0;
        if (!make(test, &way, &good)) return 0;
        for (int k = 0; k < PIECES; k++)
            if (way.empty == 1u << k && good.number != test->pieces[k].if_empty)
                return wrong(test, &way, "not the number of the table");
        way.null = way.empty;
        if (!agrees(test, &way, &good)) return 0;
    }
    return 1;
}

/* Makes the material of the trie; returns 0, or what refused. */
static uint64_t prepare_trie(void) {
    uint64_t answer[LOT_ANSWER_NUMBERS];
    uint64_t refused = lot_handle(entry, sizeof entry, handle);
    memcpy(other, handle, sizeof handle);
    other[sizeof other - 1] ^= 1;
    int in_order = memcmp(handle, other, sizeof handle) < 0;
    memcpy(handles, in_order ? handle : other, sizeof handle);
    memcpy(handles + sizeof handle, in_order ? other : handle, sizeof handle);
    refused |= lot_trie_root(handles, sizeof handles, root);
    refused |= lot_trie_root(other, sizeof other, other_root);
    refused |= lot_prove_presence(handles, sizeof handles, entry, sizeof entry, presence,
                                  sizeof presence, answer);
    refused |= lot_prove_absence(other, sizeof other, entry, sizeof entry, absence, sizeof absence,
                                 answer);
    return refused;
}

/* Makes the material of the van; returns 0, or what refused. */
static uint64_t prepare_van(void) {
    uint64_t answer[LOT_ANSWER_NUMBERS];
    uint8_t key[LOT_SEAL_KEY_BYTES], chain[LOT_DIGEST_BYTES] = {0};
    size_t first = LOT_SEALED_BYTES(sizeof entry);
    for (size_t at = 0; at < sizeof key; at++) key[at] = key_0[at] = (uint8_t)(3 * at + 2);
    uint64_t refused = lot_seal_add(key, sizeof key, chain, 2, entry, sizeof entry, sealed,
                                    sizeof sealed, answer);
    refused |= lot_seal_add(key, sizeof key, chain, LOT_SEAL_CLOSING, NULL, 0, sealed + first,
                            sizeof sealed - first, answer);
    memcpy(bad_seal, sealed, sizeof sealed);
    bad_seal[sizeof bad_seal - 1] ^= 1;
    return refused;
}

/* Makes the material. */
static int prepare(void) {
    uint64_t answer[LOT_ANSWER_NUMBERS];
    for (size_t at = 0; at < sizeof entry; at++) entry[at] = (uint8_t)(7 * at + 1);
    uint64_t refused = lot_start(store, sizeof store, LOG);
    for (int j = 1; j <= COUNT; j++)
        refused |= lot_append(store, sizeof store, entry, j == 2 ? 0 : sizeof entry, LOT_APPEND_WHOLE,
                              answer);
    refused |= lot_digest_at(store, sizeof store, COUNT, digest);
    refused |= lot_build_membership(store, sizeof store, 1, COUNT, proof, sizeof proof, answer);
    refused |= lot_build_membership(store, sizeof store, 2, COUNT, proof_2, sizeof proof_2, answer);
    refused |= lot_build_advancement(store, sizeof store, 2, COUNT, advance, sizeof advance, answer);
    refused |= lot_held_at(store, sizeof store, 2, held_2);
    refused |= lot_held_at(store, sizeof store, COUNT, held_5);
    refused |= lot_held_write(held_5, file_5, sizeof file_5, answer);
    memcpy(store_2, store, sizeof store_2);
    memcpy(changed_store, store, sizeof store);
    changed_store[LOT_STORE_BYTES(COUNT) - 2] ^= 1; /* the byte before the state byte of the last */
    memcpy(other_log, store, sizeof store);
    other_log[LOT_HEADER_BYTES - 1] ^= 1;
    memcpy(changed, proof, sizeof proof);
    changed[sizeof changed - 1] ^= 1; /* in the last component, which has 64 bytes */
    memcpy(bad_link, proof, sizeof proof);
    bad_link[64 + 96 + 64] ^= 1; /* of 4, after 1 and 2: the link of level 1, which is the one hopped */
    memcpy(bad_row, advance, sizeof advance);
    bad_row[96] ^= 1; /* of 4: the link of level 2, which row 1 of the state at 2 must equal */
    refused |= prepare_trie();
    refused |= prepare_van();
    if (refused != 0) fprintf(stderr, "the material can't be made\n");
    return refused == 0;
}

int main(void) {
    if (!prepare()) return 1;
    for (size_t t = 0; t < sizeof tests / sizeof tests[0]; t++)
        if (!misaligned(&tests[t]) || !null(&tests[t])) return 1;
    printf("%u calls with NULL or misaligned pointers agree\n", calls);
    return 0;
}
