/*
 * The stack that the calls on a held state take, each on a painted one: writing its file, reading it, and
 * advancing. One line gives them, and then those at count 0, where T(0) is hashed too.
 */
#include <stdlib.h>

#include "painted.h"

enum { LOG = 7, COUNT = 13, BEFORE = 5 }; /* from 5 to 13 the path is 6, 8, 12, 13 */

static uint8_t store[LOT_STORE_BYTES(COUNT)], digest[LOT_DIGEST_BYTES];
static uint8_t held[LOT_HELD_BYTES], file[LOT_HELD_FILE_MOST], proof[LOT_PROOF_MOST];
static uint8_t out[LOT_HELD_FILE_MOST];
static uint64_t answer[LOT_ANSWER_NUMBERS];

/* Ends the program if a call is not done. */
static void done(const char *what, uint64_t returned) {
    if (returned == 0) return;
    fprintf(stderr, "%s gives %d\n", what, (int)returned);
    exit(1);
}

static uint64_t writes(const uint8_t *state, size_t length, uint8_t *to) {
    return lot_held_write(state, to, length, answer);
}

static uint64_t advances(const uint8_t *with, size_t length, uint8_t *state) {
    memcpy(state, held, sizeof held); /* anew for each time */
    return lot_check_advancement(state, COUNT, digest, with, length, answer);
}

/* The bytes of stack that writing a state and reading it take. */
static void of_file(const uint8_t *state, size_t *writing, size_t *reading) {
    *writing = takes(writes, state, sizeof out, out);
    done("writing", number);
    size_t length = answer[0];
    memcpy(file, out, length);
    *reading = takes(lot_held_read, file, length, out);
    done("reading", number);
}

/* The bytes of stack that advancing from a count to the end takes. */
static size_t of_advance(uint64_t from) {
    done("a state", lot_held_at(store, sizeof store, from, held));
    done("a proof", lot_build_advancement(store, sizeof store, from, COUNT, proof, sizeof proof, answer));
    size_t taken = takes(advances, proof, answer[0], out);
    done("advancing", number);
    return taken;
}

/* A log of some lots. */
static void prepare(void) {
    done("start", lot_start(store, sizeof store, LOG));
    for (int j = 1; j <= COUNT; j++)
        done("append", lot_append(store, sizeof store, NULL, 0, LOT_APPEND_WHOLE, answer));
    done("a digest", lot_digest_at(store, sizeof store, COUNT, digest));
}

int main(void) {
    size_t writing, reading, writing_0, reading_0;
    static uint8_t start[LOT_HELD_BYTES], most[LOT_HELD_BYTES];
    if (!measures()) return 1;
    prepare();
    /* at the limit every row is in use; what stands in them is not judged */
    for (int at = 0; at < 8; at++) most[8 + at] = (uint8_t)(LOT_ELEMENTS_MOST >> (56 - 8 * at));
    of_file(most, &writing, &reading);
    done("a state", lot_held_start(LOG, start));
    of_file(start, &writing_0, &reading_0);
    printf("%zu bytes for writing, %zu for reading, %zu for advancing; ", writing, reading,
           of_advance(BEFORE));
    printf("at count 0 %zu, %zu and %zu\n", writing_0, reading_0, of_advance(0));
    return 0;
}
