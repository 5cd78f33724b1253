/* The proved judge with the parameters of the C programs that it is held to. */
#ifndef PROVED_H
#define PROVED_H

#include <stddef.h>
#include <stdint.h>

/* Through hawsehole_judge_beats: parameters and answer as for second_judge. */
uint64_t proved_judge(const uint8_t *trace, size_t trace_len,
                      uint8_t *page, size_t page_len,
                      uint64_t *beats, size_t beats_len,
                      const uint64_t table[13]);

/* Through hawsehole_judge, which knows no beats: leaves `beats` alone. */
uint64_t proved_judge_alone(const uint8_t *trace, size_t trace_len,
                            uint8_t *page, size_t page_len,
                            uint64_t *beats, size_t beats_len,
                            const uint64_t table[13]);

/* Through hawsehole_start, hawsehole_ask and hawsehole_take: parameters and answer
 * as for onerecord_start, onerecord_ask and onerecord_take. */
uint64_t proved_start(uint64_t *state, size_t state_len, uint64_t period, uint64_t grade,
                      uint64_t bank, uint64_t row);
uint64_t proved_ask(const uint64_t *state, size_t state_len,
                    const uint8_t *record, size_t record_len,
                    const uint8_t *page, size_t page_len,
                    const uint64_t table[13]);
uint64_t proved_take(uint64_t *state, size_t state_len,
                     const uint8_t *record, size_t record_len,
                     uint8_t *page, size_t page_len,
                     uint64_t *beat, size_t beat_len,
                     const uint64_t table[13]);

#endif
