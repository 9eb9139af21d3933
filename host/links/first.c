/*
 * A first program: a log of two lots, and the proof that the first of them stands in it.
 * README.md has the line that links it; first.rs is the same program in Rust.
 */
#include <stdio.h>
#include <stdlib.h>

#include "lotlog.h"

/* Looks at a call's number: 0 is done, any other is a refusal, and lotlog.h says which. */
static void done(const char *call, uint64_t number) {
    if (number == 0) return;
    fprintf(stderr, "%s is refused with %d\n", call, (int)number);
    exit(1);
}

int main(void) {
    /* The library does not keep entries, only their digests: keep the texts yourself. */
    static const uint8_t first[] = "articaine, lot 4711";
    const size_t first_length = sizeof first - 1; /* without C's closing zero */
    uint8_t store[LOT_STORE_BYTES(3)] = {0};
    uint8_t digest[LOT_DIGEST_BYTES], proof[LOT_PROOF_MOST];
    uint64_t answer[LOT_ANSWER_NUMBERS];

    done("start", lot_start(store, sizeof store, 7));
    done("append", lot_append(store, sizeof store, first, first_length, LOT_APPEND_WHOLE, answer));
    /* an entry may have no bytes at all */
    done("append", lot_append(store, sizeof store, NULL, 0, LOT_APPEND_WHOLE, answer));
    done("count", lot_count(store, sizeof store, answer));
    printf("count %d\n", (int)answer[0]);

    /* Positions count from 1, so the digest at 2 is that of the log with both lots. */
    done("digest", lot_digest_at(store, sizeof store, 2, digest));
    printf("digest at 2 ");
    for (size_t at = 0; at < sizeof digest; at++) printf("%02x", digest[at]);
    printf("\n");

    /* Who holds the digest and the entry checks with the proof alone, without the store. */
    done("build", lot_build_membership(store, sizeof store, 1, 2, proof, sizeof proof, answer));
    size_t length = answer[0];
    done("check", lot_check_membership(first, first_length, 1, 2, digest, proof, length, answer));
    printf("lot 1 of 2 proved by %d bytes\n", (int)length);

    done("audit", lot_audit(store, sizeof store, answer));
    printf("audit sound %d\n", (int)answer[0]);
    return 0;
}
