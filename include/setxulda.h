/* The engine of setxulda, for programs in C. docs/RULES.md says what transactions, policies, rights, tapes, logs and lines are.
 *
 * Of every function here:
 * - Pointers must not be null, not even where the count behind them is 0.
 * - Every pointer must point to as many elements as its count says. Nothing outside them is read or written.
 * - No two of the buffers may overlap, and nobody else may read or write them during the call.
 * - It answers a number: 0, or why it refuses or what it found. Where several reasons hold, the order in which they are asked is given.
 * - Where it refuses, no list, no log and no line has changed.
 * - It takes no memory, and keeps nothing between two calls.
 */
#ifndef SETXULDA_H
#define SETXULDA_H

#include <stddef.h>
#include <stdint.h>

#ifdef __cplusplus
extern "C" {
#endif

/* Who may use the policy, and on what: kind 0, the cell `number`; kind 1, the policy `number`. Any other kind names no object, which is refusal 15.
 * The right of a policy is not here: it stands in the list of rights, at the same position. */
struct setxulda_policy {
    uint16_t subject;
    uint16_t kind;
    uint16_t number;
};

/* The orders of rights. `threshold_count` 0 takes the vector order, 3 the ladder with thresholds for read, write and restrict, in this order.
 * Any other count, and a threshold outside 1 to 100, is refusal 17. */

/* Whether a day can begin with these cells, rights and policies. Changes nothing.
 * Answers 0, or the first of these that holds:
 *   17  the thresholds are of neither order
 *   14  more than 256 cells, or more than 64 policies
 *   15  not as many policies as rights, or a policy whose object is not there
 *   16  a number among the rights that is no right of the order */
uint32_t setxulda_check_setup(const uint32_t *thresholds, size_t threshold_count,
                              uint32_t *cells, size_t cell_count,
                              uint32_t *rights, size_t right_count,
                              const struct setxulda_policy *policies, size_t policy_count);

/* Whether a tape is sound: its bytes are records, one after another. Changes nothing but *record and *first_byte.
 * Answers 0 for a sound tape, and sets both to 0; else the fault at which reading stops, and sets *record to the number of its record, from 1, and *first_byte
 * to that record's first byte, from 0:
 *    9  the record is cut short
 *   10  no request has its tag
 *   11  its length is not the tag's
 *   13  the tape has more than 60,000 bytes; then both are 0 */
uint32_t setxulda_check_tape(const uint8_t *tape, size_t tape_len, uint32_t *record, uint32_t *first_byte);

/* Whether the bytes hold a log of `count` numbers. Changes nothing. Answers 0, or 18 where they do not, or where `count` is above 256. */
uint32_t setxulda_check_log(const uint8_t *log, size_t log_len, size_t count);

/* The number at the position `at`, from 0, of a log of `count` numbers. Changes nothing but *value, and that only where it answers 0.
 * Answers 0, or the first of these that holds:
 *   18  the bytes hold no log of `count` numbers
 *    4  `at` is not below `count` */
uint32_t setxulda_read_log(const uint8_t *log, size_t log_len, size_t count, size_t at, uint32_t *value);

/* Runs a tape as a day on cells and rights, which stand in the two lists and are changed in place. Each request up to the tape's end, or its first fault, is
 * answered by a line; a fault has a last line of its own.
 * Answers 0: the day was run, and its lines are the first *lines_used bytes of `lines`; later bytes stay.
 * Else *lines_used is 0, nothing was run, and neither a list nor `lines` has changed. The answer is the first of these that holds:
 *   17  the thresholds are of neither order
 *   14  more than 256 cells, or more than 64 policies
 *   15  not as many policies as rights, or a policy whose object is not there
 *   16  a number among the rights that is no right of the order
 *   12  `lines_len` is less than the lines could take: 28 for a tape of more than 60,000 bytes, else 14 for each whole five of its bytes, and 28.
 *       170,000 bytes suffice for every tape */
uint32_t setxulda_run_tape(const uint32_t *thresholds, size_t threshold_count,
                           uint32_t *cells, size_t cell_count,
                           uint32_t *rights, size_t right_count,
                           const struct setxulda_policy *policies, size_t policy_count,
                           const uint8_t *tape, size_t tape_len,
                           uint8_t *lines, size_t lines_len, size_t *lines_used);

/* The same on two logs, of `cell_count` and `right_count` numbers, each in the caller's bytes. Each commit writes its transaction's changes into the logs, and nothing
 * else is written; so a sound log stays one.
 * Answers 0 as setxulda_run_tape does. Else *lines_used is 0, nothing was run, and neither a log nor `lines` has changed. The answer is the first of these that holds:
 *   17  the thresholds are of neither order
 *   18  the cells' bytes hold no log of `cell_count` numbers
 *   18  the rights' bytes hold no log of `right_count` numbers
 *   14, 15, 16, and then 12
 *       as of setxulda_run_tape, by the numbers that the logs hold */
uint32_t setxulda_run_tape_on_logs(const uint32_t *thresholds, size_t threshold_count,
                                   uint8_t *cells_log, size_t cells_log_len, size_t cell_count,
                                   uint8_t *rights_log, size_t rights_log_len, size_t right_count,
                                   const struct setxulda_policy *policies, size_t policy_count,
                                   const uint8_t *tape, size_t tape_len,
                                   uint8_t *lines, size_t lines_len, size_t *lines_used);

#ifdef __cplusplus
}
#endif

#endif
