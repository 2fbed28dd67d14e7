/* Walnutgleam: the checker of causal history certificates, from C. docs/FORMAT.md has the two texts and all answer numbers,
 * docs/CRITERIA.md what the criteria mean. Link libwalnutgleam.a (make archive, make install).
 *
 * Every function takes any bytes of any length, refuses what is not a readable text, never writes past the lengths that it is
 * given, allocates nothing and keeps nothing between calls, so calls from several threads need no lock. 0 is acceptance or
 * success, and only then. For every input the answer, its places and every byte of a buffer are what the definitions say; that
 * is proved (docs/PROOFS.md), and the proof assumes of the caller:
 *
 * - Each pointer is valid for the length given beside it, and aligned for its type. It is NULL only where that length is 0. The
 *   pointer named length has none beside it: it points to one number and is not NULL.
 * - A buffer, slice or number that is lent to be written overlaps nothing else that is lent in the same call. The two texts may
 *   overlap each other.
 * - There is stack for the call: 56,000 bytes for check, verdict and rewrite_certificate, 84,000 for weaken and sequential,
 *   10,000 for rewrite_history. `make bench` measures it on x86-64, with accepted and damaged texts; it is not proved. */
#ifndef WALNUTGLEAM_H
#define WALNUTGLEAM_H

#include <stddef.h>
#include <stdint.h>

#ifdef __cplusplus
extern "C" {
#endif

/* What stands in a place that an answer does not carry. */
#define WALNUTGLEAM_NONE UINT32_C(0xFFFFFFFF)

/* Checks a certificate text for a history text: the answer's number. */
uint32_t walnutgleam_check(const uint8_t *history, size_t history_length,
                           const uint8_t *certificate, size_t certificate_length);

/* The same answer. places gets, in this order:
 *   0  the criterion that the certificate names (pram 0, weak 1, causal 2, converge 3, sequential 4, strict 5)
 *   1  the text of the line that the answer carries (0 none, 1 history, 2 certificate): a reading refusal carries the
 *      faulty line, in either text; 11 to 13 and 16 carry the line of their event, in the history; 0, 14, 15 and 20
 *      carry none
 *   2  the number of that line, from 1; 0 for a text that is too long
 *   3  the view: 14, 15, 16 and 20 carry one; under pram and strict it is a process's number
 *   4  the event
 *   5  where that line starts within its text, and 6 its length without its line feed; 0 and 0 where there is none or it is empty
 * Places 0, 2, 3 and 4 are WALNUTGLEAM_NONE where the answer does not carry them. A slice of another length than 7 is filled as
 * far as it goes and left alone past that. (walnutgleam_show, which older callers may know, is withdrawn: places 1, 2, 5 and 6 have
 * the line of the event that an answer names.) */
uint32_t walnutgleam_verdict(const uint8_t *history, size_t history_length,
                             const uint8_t *certificate, size_t certificate_length,
                             uint32_t *places, size_t places_length);

/* Weakens an accepted certificate text to the criterion wanted (0 to 5, numbers as above): the weakened text goes into
 * the buffer's first bytes, the rest stays as it was, and length gets their number. Refusals, in this order: the
 * reading refusals of the check; 17 if the two criteria are not a pair of docs/FORMAT.md's list; 11 to 15, 20 and 16 of
 * the check; 18 if the buffer has fewer bytes than the text. It gives the number only; walnutgleam_verdict on the same
 * texts gives the places of 1 to 6, of 11 to 16 and of 20. On a refusal no byte changes and length gets 0. */
uint32_t walnutgleam_weaken(const uint8_t *history, size_t history_length,
                            const uint8_t *certificate, size_t certificate_length,
                            uint32_t wanted, uint8_t *buffer, size_t buffer_length, uint64_t *length);

/* Writes a sequential certificate text from an accepted weak, causal, strict or converge one whose causal order, its pasts,
 * orders every two updates: write, push and pop on any objects, whatever their answers. The check accepts what is written.
 * Its one order has the updates in causal order, each read or peek after the last update in its past (or first of all) and
 * before the next update, several at one place by rising number. The text goes into the buffer's first bytes, the rest stays
 * as it was, and length gets their number. Refusals, in this order: the reading refusals of the check; 17 for a pram or
 * sequential certificate; 11 to 15, 20 and 16 of the check; 26 if two updates are unordered; 18 if the buffer has fewer bytes
 * than the text. It gives the number only; walnutgleam_verdict on the same texts gives the places of 1 to 6, of 11 to 16 and
 * of 20. On a refusal no byte changes and length gets 0. */
uint32_t walnutgleam_sequential(const uint8_t *history, size_t history_length,
                                const uint8_t *certificate, size_t certificate_length,
                                uint8_t *buffer, size_t buffer_length, uint64_t *length);

/* Reads a text and writes it back from its record, the bytes that were read, into the buffer's first bytes; the rest stays as it
 * was, and length gets their number. 18 if the buffer has fewer bytes than the text. A reading refusal is that of the check, and
 * walnutgleam_verdict gives its places (for a history with any certificate). On a refusal no byte changes and length gets 0. */
uint32_t walnutgleam_rewrite_history(const uint8_t *history, size_t history_length,
                                     uint8_t *buffer, size_t buffer_length, uint64_t *length);
uint32_t walnutgleam_rewrite_certificate(const uint8_t *history, size_t history_length,
                                         const uint8_t *certificate, size_t certificate_length,
                                         uint8_t *buffer, size_t buffer_length, uint64_t *length);

#ifdef __cplusplus
}
#endif

#endif
