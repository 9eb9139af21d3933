/*
 * The stack that a call takes: it is made on a stack that is painted beforehand, and the painted bytes that
 * are left below are counted. Calls that are known to take so many bytes are measured first.
 */
#include <stdio.h>
#include <string.h>

#include "lotlog.h"

enum {
    STACK = 1 << 16,
    BESIDE = 64 /* what a known call may take beside its bytes, with its return address */
};

/* A call that reads some bytes and writes others. */
typedef uint64_t call(const uint8_t *read, size_t length, uint8_t *written);

uint64_t on_other_stack(call *call, const uint8_t *read, size_t length, uint8_t *written,
                        uint8_t *top);

/* A call that is known to write so many bytes of its stack. */
#define KNOWN(bytes)                                                                         \
    static uint64_t known_##bytes(const uint8_t *read, size_t length, uint8_t *written) {    \
        volatile uint8_t taken[bytes];                                                       \
        (void)read, (void)length, (void)written;                                             \
        for (size_t at = 0; at < sizeof taken; at++) taken[at] = 1;                          \
        return 0;                                                                            \
    }
KNOWN(200)
KNOWN(3000)

static const struct {
    call *call;
    size_t bytes;
} known[] = {{known_200, 200}, {known_3000, 3000}};

static _Alignas(16) uint8_t stack[STACK];
static uint64_t number; /* what the last call returned */

/* How far down a call changes the stack that is painted in a colour. */
static size_t changed(call *call, const uint8_t *read, size_t length, uint8_t *written, uint8_t colour) {
    size_t left = 0;
    memset(stack, colour, sizeof stack);
    number = on_other_stack(call, read, length, written, stack + sizeof stack);
    while (left < sizeof stack && stack[left] == colour) left++;
    return sizeof stack - left;
}

/* The bytes of stack that a call takes. It is made once before, so that what the loader does at a first
   call is not counted, and then in two colours, since a byte of the first may be what it writes. */
static size_t takes(call *call, const uint8_t *read, size_t length, uint8_t *written) {
    changed(call, read, length, written, 0);
    size_t first = changed(call, read, length, written, 0xA5);
    size_t second = changed(call, read, length, written, 0x5A);
    return first > second ? first : second;
}

/* Whether the known calls are measured rightly. */
static int measures(void) {
    for (size_t k = 0; k < sizeof known / sizeof known[0]; k++) {
        size_t taken = takes(known[k].call, NULL, 0, NULL);
        if (taken >= known[k].bytes && taken <= known[k].bytes + BESIDE) continue;
        fprintf(stderr, "%zu bytes are written and %zu measured\n", known[k].bytes, taken);
        return 0;
    }
    return 1;
}
