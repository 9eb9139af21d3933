/*
 * lotlog.h: the calls of the proved lot log, for C and for every language that calls C.
 *
 * Link the archive that `host/run library` writes; README has the line. It is for x86-64 Linux and
 * needs at most memcpy, memmove and memset, from the C library or of your own, and nothing else. No
 * call allocates, keeps a pointer or touches anything but what it is lent.
 *
 * Every call returns a number of documents 01 and 02: 0 for done, else the refusal.
 *
 *    1  store under 16 bytes, wrong header, or damage in the state bytes or their order
 *    2  held state over the limit, a free row not zero, or count 0 with a digest that is not T(0);
 *       held file with count 0 and such a digest
 *    3  entry, key or data over 4,096 bytes; message over 65,536 bytes; HMAC: key over 65,536 bytes or
 *       message over 65,472 bytes
 *    4  no such position or length
 *    5  no open record, or the log is full
 *    6  lent output too short; van's key not of 32 bytes
 *    7  proof length not that of the path
 *    8  first d is not the entry's
 *    9  basis row differs; `answer` says at which element and in which row
 *   10  link differs; `answer` says at which element and at which level
 *   11  last digest differs
 *   12  audit: an element's T is wrong
 *   13  dispute, clash: a proof is not accepted
 *   14  list of handles broken (no multiple of 32 bytes), not rising, or over 1,000 handles
 *   15  presence asked of a key that is absent, or absence of one that is present
 *   16  trie proof: not 256 siblings (presence), or not 0 to 256 whole ones (absence)
 *   17  root differs
 *   18  held file under 53 bytes
 *   19  held file: wrong mark
 *   20  held file: wrong version
 *   21  held file: count over the limit
 *   22  held file: length not that of its count
 *   23  van's key of zeros: the log is closed
 *   24  van's log: an entry is cut short, too long, wrongly sealed or after a closing one; `answer` says
 *       which, from 0
 *   25  van's log: no closing entry
 *   26  two stores: their log numbers differ
 *
 * Lent memory. A refused call leaves every store, digest, handle, root, held state, key, output and
 * buffer as it was. `answer` is no lent memory in that sense: it is written whole by each call that takes it,
 * with 0 where nothing is to be said.
 *
 * Pointers. A pointer with a length n must be good for n bytes; with length 0 any pointer will do, NULL
 * too. Every other NULL is the caller's fault and is not noticed: a digest, a handle, a root, a held
 * state or `answer` that is NULL, or NULL with another length. A `uint8_t x[32]` must be good for 32
 * bytes, `answer` for 24. Memory that a call may write must not be lent to it twice. No pointer need be
 * aligned, `answer` neither.
 *
 * Numbers. Positions count from 1: the first lot is element 1 of the log, and it stands in record 0 of
 * the store. Length 0 is the log before its first lot. The store holds no entries, only their digests:
 * keep each entry yourself, since checking and disputing take it again.
 *
 * Layouts, all numbers big-endian:
 *   store       16 bytes: "LOT", version 1 (2), three zero bytes, log number (8);
 *               then records of 65 bytes: d (32), T (32), state byte (255 open, 1 closed;
 *               any other, 0 too, is damage)
 *   held state  1,072 bytes: log number (8), count (8), digest (32), 32 rows of 32 bytes
 *   held file   53 bytes: "HLD", version 1 (2), log number (8), count (8), digest (32);
 *               then the rows in use, 32 bytes each, lowest level first: row l is in use if bit l
 *               of the count is 1, whatever it holds
 *   component   of element j with f trailing zero bits: d, T(j-1), T(j-2), T(j-4) .. T(j-2^f)
 *   proof       membership (i, n): the components of the path from i to n, both included;
 *               advancement: the same without i
 *
 * The dictionary. A trie of depth 256 shows under one root which keys are present and which are absent.
 * A key's handle is SHA-256 of 03 and the key; its bits are the way from the root, most significant
 * first, 0 to the left and 1 to the right. A full leaf is SHA-256 of 04 and the handle, an inner node
 * SHA-256 of 05, left, right; any empty subtree is 32 zero bytes, the root of no handles too.
 *   handles     0 to 1,000 handles of 32 bytes, strictly rising byte by byte
 *   trie proof  the siblings of the nodes on the key's way, 32 bytes each, from the root down: 256 for
 *               presence; for absence those down to the first empty node, none if the root is empty
 *
 * A van's log. A van seals what it writes under a key that it does not keep; the office knows the first
 * key, A(0), and checks the whole log. Y(j) is SHA-256 of 06, Y(j-1), the type (4 bytes) and the data,
 * and Y(-1) is 32 zero bytes. The seal of entry j is HMAC-SHA-256 under A(j) of Y(j). A(j+1) is SHA-256
 * of the 14 bytes "Increment Hash" and A(j). An entry of type 1 closes the log; then the key is zeros.
 *   entry       type (4), length of the data (2), the data, 0 to 4,096 bytes, the seal (32)
 *   log         the entries, one after the other
 */
#ifndef LOTLOG_H
#define LOTLOG_H

#include <stddef.h>
#include <stdint.h>

#ifdef __cplusplus
extern "C" {
#endif

#define LOT_DIGEST_BYTES 32
#define LOT_ANSWER_NUMBERS 3
#define LOT_HEADER_BYTES 16
#define LOT_RECORD_BYTES 65
#define LOT_ENTRY_MOST 4096       /* the longest entry, in bytes */
#define LOT_HASH_MOST 65536       /* the longest message of lot_hash, in bytes */
#define LOT_DISPUTE_LEAST 4097    /* the least room of a dispute's buffer, in bytes */
#define LOT_APPEND_WHOLE 65       /* the `stop` of an append that is not cut */
#define LOT_HELD_FILE_LEAST 53    /* the shortest held file, that of count 0, in bytes */
#define LOT_HANDLES_MOST 1000     /* the most handles of a list */
#define LOT_TRIE_PROOF_MOST 8192  /* the longest trie proof, and every one of presence, in bytes */
#define LOT_CLASH_LEAST 65        /* the least room of a clash's buffer, in bytes */
#define LOT_MAC_KEY_MOST 65536    /* the longest key of lot_mac, in bytes */
#define LOT_MAC_MOST 65472        /* the longest message of lot_mac, in bytes */
#define LOT_SEAL_KEY_BYTES 32
#define LOT_SEAL_CLOSING 1u       /* the type of the entry that closes a van's log */
#define LOT_SEAL_STACK_MOST 4096  /* the most stack that lot_seal_add takes, in bytes; measured */

/* The levels of a log, from which the numbers below follow: the most elements, the bytes of a held
   state with its row for each level, and the most bytes of a proof and of a held file. */
#define LOT_LEVELS 32
#define LOT_ELEMENTS_MOST ((UINT64_C(1) << LOT_LEVELS) - 1)                /* 4,294,967,295 */
#define LOT_HELD_BYTES (48 + 32 * LOT_LEVELS)                              /* 1,072 */
#define LOT_PROOF_MOST (32 * (LOT_LEVELS * LOT_LEVELS + 2 * LOT_LEVELS - 1)) /* 34,784 */
#define LOT_HELD_FILE_MOST (LOT_HELD_FILE_LEAST + 32 * LOT_LEVELS)         /* 1,077 */

/* The bytes of a van's entry with so many of data. */
#define LOT_SEALED_BYTES(data_length) ((size_t)38 + (size_t)(data_length))

/* The bytes of a store with room for so many elements. */
#define LOT_STORE_BYTES(room) \
    ((size_t)LOT_HEADER_BYTES + (size_t)LOT_RECORD_BYTES * (size_t)(room))

/* SHA-256 of the message. Refusals: 3. */
uint64_t lot_hash(const uint8_t *message, size_t message_length, uint8_t digest[32]);

/* Starts a store for a log: writes the header and opens every record, which sets its state byte to 255
   and leaves its other 64 bytes. What the store held is lost.
   Refusals: 6 for a store under 16 bytes. */
uint64_t lot_start(uint8_t *store, size_t store_length, uint64_t log);

/* Counts the elements. Refusals: 1. Answer: the count. */
uint64_t lot_count(const uint8_t *store, size_t store_length, uint64_t answer[3]);

/* Appends an entry: the 64 bytes of d and T, in no certain order, and when all of them are stored the
   state byte, by itself, which closes the record. So a process that ends at any moment leaves the old
   log or the new one. (What reaches a disk, and when, is the caller's to see to: docs/DURABILITY.md.)
   It stops after the first `stop` of these 65 bytes; LOT_APPEND_WHOLE or more is the whole append.
   Refusals: 1, 3, 5. Answer: the count now held. A cut append is no refusal: it answers 0 with the old
   count. */
uint64_t lot_append(uint8_t *store, size_t store_length, const uint8_t *entry, size_t entry_length,
                    uint64_t stop, uint64_t answer[3]);

/* Reads T(at); at = 0 gives T(0) of the log. Refusals: 1, 4. */
uint64_t lot_digest_at(const uint8_t *store, size_t store_length, uint64_t at, uint8_t digest[32]);

/* Recomputes every T from the stored d. Refusals: 1, 12. Answer: the count, or with 12 the lowest
   element whose T is wrong. */
uint64_t lot_audit(const uint8_t *store, size_t store_length, uint64_t answer[3]);

/* Compares two stores of one log, element by element, the 64 bytes of d and T of each; what stands in
   open room, and how much of it there is, does not count. The same store may be lent twice. Refusals: 1
   if either is damaged, then 26. Answer: 0 if they are equal; 1 if the first is the start of the second,
   2 if the second is the start of the first; else 3, the first element at which they differ, and the
   first byte within its 64, from 0. */
uint64_t lot_compare(const uint8_t *first, size_t first_length, const uint8_t *second,
                     size_t second_length, uint64_t answer[3]);

/* Builds the membership proof for (i, n) at the start of `out`; what lies after it stays. Refusals: 1,
   4, 6. Answer: the proof's length. */
uint64_t lot_build_membership(const uint8_t *store, size_t store_length, uint64_t i, uint64_t n,
                              uint8_t *out, size_t out_length, uint64_t answer[3]);

/* Checks that the entry stands at position i of the log whose digest at length n is given. Refusals:
   3, 4, 7, 8, 10, 11. Answer: the hops found good, with 10 and 11 too; then with 10 where the proof
   broke: the element that the bad hop reaches and the level hopped. Both are 0 with any other number.
   What is wrong is the link of that level in the element's component, or the component before it. */
uint64_t lot_check_membership(const uint8_t *entry, size_t entry_length, uint64_t i, uint64_t n,
                              const uint8_t digest[32], const uint8_t *proof, size_t proof_length,
                              uint64_t answer[3]);

/* Given two entries with accepted proofs for one (i, n, digest): writes two different messages of
   equal hash, one to each output, or finds that nothing differs. Refusals: 6 for an output under 4,097
   bytes, 13. Answer: 1 if all is the same, else 0 and the two messages' lengths; with 13, 1 or 2 for
   the proof that is not accepted, 1 if both are not, and not where it broke: lot_check_membership says
   that. */
uint64_t lot_dispute(const uint8_t *first_entry, size_t first_entry_length,
                     const uint8_t *first_proof, size_t first_proof_length,
                     const uint8_t *second_entry, size_t second_entry_length,
                     const uint8_t *second_proof, size_t second_proof_length,
                     uint64_t i, uint64_t n, const uint8_t digest[32],
                     uint8_t *first_out, size_t first_out_length,
                     uint8_t *second_out, size_t second_out_length, uint64_t answer[3]);

/* Finds the differing component nearest n of two proofs for (i, n). Never refuses. Answer: where it
   begins in the second proof, and its length; 0, 0 if none differs, a length is wrong or the positions
   are refused. */
uint64_t lot_differing(const uint8_t *first, size_t first_length, const uint8_t *second,
                       size_t second_length, uint64_t i, uint64_t n, uint64_t answer[3]);

/* The held state that the store gives at a length. Refusals: 1, 4. */
uint64_t lot_held_at(const uint8_t *store, size_t store_length, uint64_t at, uint8_t held[LOT_HELD_BYTES]);

/* The held state at length 0 of a log: what a practice begins with. Never refuses. */
uint64_t lot_held_start(uint64_t log, uint8_t held[LOT_HELD_BYTES]);

/* Builds the advancement proof from i to n at the start of `out`; what lies after it stays. Refusals:
   1, 4, 6. Answer: the proof's length. */
uint64_t lot_build_advancement(const uint8_t *store, size_t store_length, uint64_t i, uint64_t n,
                               uint8_t *out, size_t out_length, uint64_t answer[3]);

/* Advances a held state to length n with the digest claimed: `held` becomes the new state if the proof
   is accepted. Refusals: 2, 4, 7, 9, 10, 11. Answer: the hops found good, with 9, 10 and 11 too; then
   with 9 and 10 where the proof broke: the element that the bad hop reaches, and with 9 the row that
   differs, the lowest if several do, with 10 the level hopped. Both are 0 with any other number. Row c
   differs from the link of level c + 1 in that element's component; the number given is c. */
uint64_t lot_check_advancement(uint8_t held[LOT_HELD_BYTES], uint64_t n, const uint8_t digest[32],
                               const uint8_t *proof, size_t proof_length, uint64_t answer[3]);

/* Writes a held state as a held file at the start of `out`; what lies after it stays. One state has one
   file. Refusals: 2, 6. Answer: the file's length, 53 bytes and 32 for each 1 bit of the count. */
uint64_t lot_held_write(const uint8_t held[LOT_HELD_BYTES], uint8_t *out, size_t out_length, uint64_t answer[3]);

/* Reads a held file: `held` becomes its state, and rows that are not in use become zero. A file that
   reads gives itself back when written. At a count over 0 the digest and the rows are not judged.
   Refusals: 18, 19, 20, 21, 22, 2, in this order. */
uint64_t lot_held_read(const uint8_t *file, size_t file_length, uint8_t held[LOT_HELD_BYTES]);

/* The handle of a key. Refusals: 3. */
uint64_t lot_handle(const uint8_t *key, size_t key_length, uint8_t handle[32]);

/* The root of the trie of these handles. Refusals: 14. */
uint64_t lot_trie_root(const uint8_t *handles, size_t handles_length, uint8_t root[32]);

/* Builds the proof that the key is present among the handles, at the start of `out`; what lies after it
   stays. Refusals: 3, 14, 15, 6, in this order. Answer: the proof's length in bytes. */
uint64_t lot_prove_presence(const uint8_t *handles, size_t handles_length, const uint8_t *key,
                            size_t key_length, uint8_t *out, size_t out_length, uint64_t answer[3]);

/* Builds the proof that the key is absent among the handles, at the start of `out`; what lies after it
   stays. Refusals: 3, 14, 15, 6, in this order. Answer: the proof's length in bytes. */
uint64_t lot_prove_absence(const uint8_t *handles, size_t handles_length, const uint8_t *key,
                           size_t key_length, uint8_t *out, size_t out_length, uint64_t answer[3]);

/* Checks that the key is present under the root. Refusals: 3, 16, 17. */
uint64_t lot_check_presence(const uint8_t *key, size_t key_length, const uint8_t root[32],
                            const uint8_t *proof, size_t proof_length);

/* Checks that the key is absent under the root. Each step is hashed as an inner node, even over two
   empty sides: so a root that no list gives may be accepted. Refusals: 3, 16, 17. */
uint64_t lot_check_absence(const uint8_t *key, size_t key_length, const uint8_t root[32],
                           const uint8_t *proof, size_t proof_length);

/* Given an accepted presence and an accepted absence for one key and root: writes two different
   messages of equal hash, the presence's to `first_out` and the absence's to `second_out`; or one
   message whose hash is all zeros, to `first_out`. Refusals: 6 for an output under 65 bytes, 13.
   Answer: 0 and the two messages' lengths, or 1 and the one message's length; with 13, 1 or 2 for the
   presence or the absence that is not accepted, 1 if both are not. */
uint64_t lot_trie_clash(const uint8_t *key, size_t key_length, const uint8_t root[32],
                        const uint8_t *presence, size_t presence_length,
                        const uint8_t *absence, size_t absence_length,
                        uint8_t *first_out, size_t first_out_length,
                        uint8_t *second_out, size_t second_out_length, uint64_t answer[3]);

/* HMAC-SHA-256 of the message under the key, each of any length up to its limit. Refusals: 3. */
uint64_t lot_mac(const uint8_t *key, size_t key_length, const uint8_t *message,
                 size_t message_length, uint8_t mac[32]);

/* Adds an entry to a van's log: writes it to the start of `out` and leaves the rest of `out`. The key
   is overwritten by the next one, or by zeros if the type is 1, and `chain` becomes Y with this entry.
   Before the first entry the key is A(0) and `chain` 32 zero bytes; from call to call both are handed
   on as they are. What the call leaves of the old key on the stack, up to LOT_SEAL_STACK_MOST bytes
   below the caller, is the caller's to clear (README, "For the van's engineer").
   Refusals: 3 for data over 4,096 bytes; 6 for a key that is not of 32 bytes, or an `out` under
   LOT_SEALED_BYTES(data_length); 23 for a key of zeros. Answer: the bytes of the entry. */
uint64_t lot_seal_add(uint8_t *key, size_t key_length, uint8_t chain[32], uint32_t kind,
                      const uint8_t *data, size_t data_length, uint8_t *out, size_t out_length,
                      uint64_t answer[3]);

/* Checks a van's whole log from A(0). Every value of `first_key` is taken, zeros too, under which
   anyone can seal. Refusals: 24, 25. Answer: the number of entries; with 24, the first wrong one. */
uint64_t lot_seal_check(const uint8_t first_key[32], const uint8_t *log, size_t log_length,
                        uint64_t answer[3]);

#ifdef __cplusplus
}
#endif

#endif
