/*
 * The stack that a one-shot hash takes: lot_hash is called on a painted stack. One line gives the most that
 * a hash took.
 */
#include "painted.h"

enum { TOO_LONG = 3 };

/* The lengths that are hashed: of no message, of elements and entries, and of one that is refused. */
static const struct {
    size_t length;
    uint64_t number;
} hashed[] = {{0, 0}, {73, 0}, {1065, 0}, {4097, 0}, {LOT_HASH_MOST + 1, TOO_LONG}};

static uint8_t message[LOT_HASH_MOST + 1], digest[LOT_DIGEST_BYTES];

int main(void) {
    enum { TIMES = sizeof hashed / sizeof hashed[0] };
    size_t taken[TIMES], most = 0;
    if (!measures()) return 1;
    for (int k = 0; k < TIMES; k++) {
        taken[k] = takes(lot_hash, message, hashed[k].length, digest);
        if (taken[k] > most) most = taken[k];
        if (number == hashed[k].number) continue;
        fprintf(stderr, "a hash of %zu bytes gives %d\n", hashed[k].length, (int)number);
        return 1;
    }
    printf("%zu bytes:", most);
    for (int k = 0; k < TIMES; k++)
        printf("%s %zu for a message of %zu", k > 0 ? "," : "", taken[k], hashed[k].length);
    printf("\n");
    return 0;
}
