/* The second program: document 01 asked directly of the records. */
#ifndef SECOND_H
#define SECOND_H

#include <stddef.h>
#include <stdint.h>

/* Judges a whole trace.
 *
 * table  the thirteen numbers of 01's speed table, read row by row;
 * page   the lent page, stored into for records that are taken;
 * beats  two words for each taken record, written where the slice has them:
 *        lanes (bits 0 to 7), column (8 to 23), row (24 to 39), bank (40 to
 *        47) and kind (48 to 55; 0 none, 1 read, 2 write), then the clock.
 *
 * The answer holds the number in bits 0 to 7, the interval in 8 to 15 and the
 * record in 16 to 39.
 *
 * The records read so far stand in one static array: one call at a time. */
uint64_t second_judge(const uint8_t *trace, size_t trace_len,
                      uint8_t *page, size_t page_len,
                      uint64_t *beats, size_t beats_len,
                      const uint64_t table[13]);

#endif
