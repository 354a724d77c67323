/* Temgurisk: the register step, and a checker of its results. The functions are proved; see docs/TRUST.md.
 *
 * Link target/staticlib/libtemgurisk.a, which `./archive` writes.
 *
 * A table is a pointer to its first word and the number of its words; of an empty table the pointer may be anything but
 * must be aligned and not null. The words of the tables, and the numbers and places of answers, are those of document 01;
 * docs/DESIGN.md has them in short. Any words at all get an answer, and every call returns. The two areas that are
 * written, `result` and `work`, overlap neither each other nor a table. Nothing is kept between calls, and calls from
 * several threads do not disturb each other.
 */
#ifndef TEMGURISK_H
#define TEMGURISK_H

#include <stdbool.h>
#include <stddef.h>
#include <stdint.h>

#ifdef __cplusplus
extern "C" {
#endif

/* An answer: 1 is done, every other number a refusal. Of a refusal count and total are 0; an answer that names no place
 * has place 65535. */
typedef struct temgurisk_reply {
    uint32_t number; /* 1 to 14 */
    uint32_t place;  /* the class, interval, mention, safepoint, register, record or rule that the answer is about */
    uint32_t count;  /* done: records */
    uint32_t total;  /* done: slots in use */
} temgurisk_reply;

/* The most words that a call can use: of `result`, 2 for each of 16,384 records; of `work`, 8 for each and 256 more. */
#define TEMGURISK_MOST_RESULT_WORDS 32768
#define TEMGURISK_MOST_WORK_WORDS 131328

/* Gives every interval a register or a slot.
 *
 * What the lent words hold afterwards:
 *   the six tables   what they held: they are only read.
 *   result           answer 1: the records, 2 words each, in the first 2 * count words, and every word after them as it
 *                    was. Answers 2 to 9: as it was. Answers 10 to 13: zeros in every whole record of the capacity, which
 *                    is half of result_count, at most 16,384; an odd last word, and what lies past the capacity, as it
 *                    was.
 *   work             answers 2 to 9: as it was. Answers 1 and 10 to 13: not specified.
 *
 * strategy is 1 to 7, and any other number is answer 2. Answer 14 is not given. */
temgurisk_reply temgurisk_assign(
    uint32_t strategy, bool partial_split, bool partial_split_near_end,
    uint32_t instructions,
    const uint32_t *classes, size_t class_count,
    const uint32_t *registers, size_t register_count,
    const uint32_t *fragments, size_t fragment_count,
    const uint32_t *intervals, size_t interval_word_count, /* 4 words for each interval */
    const uint32_t *mentions, size_t mention_count,
    const uint32_t *safepoints, size_t safepoint_count,
    uint32_t *result, size_t result_count,
    uint32_t *work, size_t work_count);

/* Says whether a claim, count records in the first 2 * count words and a slot total, is a right placement of the tables'
 * intervals: answer 1 with the claimed count and total, or 14 with the lowest of the seven rules that it breaks as place;
 * 3 to 8 for tables that are not sound. It is 3 also for a count above 16,384 or beyond word_count.
 *
 * What the lent words hold afterwards: what they held. The tables and the claim are only read, and nothing is written. */
temgurisk_reply temgurisk_check(
    uint32_t instructions,
    const uint32_t *classes, size_t class_count,
    const uint32_t *registers, size_t register_count,
    const uint32_t *fragments, size_t fragment_count,
    const uint32_t *intervals, size_t interval_word_count,
    const uint32_t *mentions, size_t mention_count,
    const uint32_t *safepoints, size_t safepoint_count,
    const uint32_t *words, size_t word_count,
    uint32_t count, uint32_t total);

#ifdef __cplusplus
}
#endif

#endif
