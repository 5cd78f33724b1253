/* The proved judge with the parameters of the C programs that it is held to. */
#include "proved.h"

#include "../include/hawsehole.h"

#define SPREAD(t) t[0], t[1], t[2], t[3], t[4], t[5], t[6], t[7], t[8], t[9], t[10], t[11], t[12]

uint64_t proved_judge(const uint8_t *trace, size_t trace_len,
                      uint8_t *page, size_t page_len,
                      uint64_t *beats, size_t beats_len,
                      const uint64_t table[13])
{
    return hawsehole_judge_beats(trace, trace_len, page, page_len, beats, beats_len,
                                 SPREAD(table));
}

uint64_t proved_judge_alone(const uint8_t *trace, size_t trace_len,
                            uint8_t *page, size_t page_len,
                            uint64_t *beats, size_t beats_len,
                            const uint64_t table[13])
{
    (void)beats;
    (void)beats_len;
    return hawsehole_judge(trace, trace_len, page, page_len, SPREAD(table));
}

uint64_t proved_start(uint64_t *state, size_t state_len, uint64_t period, uint64_t grade,
                      uint64_t bank, uint64_t row)
{
    return hawsehole_start(state, state_len, period, grade, bank, row);
}

uint64_t proved_ask(const uint64_t *state, size_t state_len,
                    const uint8_t *record, size_t record_len,
                    const uint8_t *page, size_t page_len,
                    const uint64_t table[13])
{
    return hawsehole_ask(state, state_len, record, record_len, page, page_len, SPREAD(table));
}

uint64_t proved_take(uint64_t *state, size_t state_len,
                     const uint8_t *record, size_t record_len,
                     uint8_t *page, size_t page_len,
                     uint64_t *beat, size_t beat_len,
                     const uint64_t table[13])
{
    return hawsehole_take(state, state_len, record, record_len, page, page_len, beat, beat_len,
                          SPREAD(table));
}
