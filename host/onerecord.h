/* The one-record call of document 01, for every content of the state's words. */
#ifndef ONERECORD_H
#define ONERECORD_H

#include <stddef.h>
#include <stdint.h>

/* As hawsehole_start, hawsehole_ask and hawsehole_take (include/hawsehole.h),
 * the table as an array: each gives that answer and leaves those words, page
 * bytes and beat words. */
uint64_t onerecord_start(uint64_t *state, size_t state_len, uint64_t period, uint64_t grade,
                         uint64_t bank, uint64_t row);
uint64_t onerecord_ask(const uint64_t *state, size_t state_len,
                       const uint8_t *record, size_t record_len,
                       const uint8_t *page, size_t page_len,
                       const uint64_t table[13]);
uint64_t onerecord_take(uint64_t *state, size_t state_len,
                        const uint8_t *record, size_t record_len,
                        uint8_t *page, size_t page_len,
                        uint64_t *beat, size_t beat_len,
                        const uint64_t table[13]);

#endif
