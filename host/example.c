/* How the library is used: document 01's printed case, judged with its beats. */
#include "../include/hawsehole.h"
#include "printed.h"

#include <inttypes.h>
#include <stdio.h>

static void print_beat(uint32_t k, const uint64_t *beat)
{
    printf("%c %" PRIu32 " %" PRIu64 " %u %u %u %02x\n",
           hawsehole_beat_kind(beat) == HAWSEHOLE_WRITE ? 'W' : 'R', k,
           hawsehole_beat_clock(beat), hawsehole_beat_bank(beat), hawsehole_beat_row(beat),
           hawsehole_beat_column(beat), hawsehole_beat_lanes(beat));
}

int main(void)
{
    uint8_t page[HAWSEHOLE_PAGE_BYTES] = {0};
    uint64_t beats[HAWSEHOLE_BEAT_WORDS * PRINTED_RECORDS];
    uint64_t answer = hawsehole_judge_beats(printed_case, sizeof printed_case, page, sizeof page,
                                            beats, HAWSEHOLE_BEAT_WORDS * PRINTED_RECORDS,
                                            HAWSEHOLE_GRADE_133);
    for (uint32_t k = 0; k < hawsehole_record(answer); k++)
        if (hawsehole_beat_kind(beats + HAWSEHOLE_BEAT_WORDS * k) != HAWSEHOLE_NO_BEAT)
            print_beat(k, beats + HAWSEHOLE_BEAT_WORDS * k);
    if (hawsehole_number(answer) == 0)
        printf("OK %" PRIu32 "\n", hawsehole_record(answer));
    else
        printf("REFUSED %" PRIu32 " %u %u\n", hawsehole_record(answer), hawsehole_number(answer),
               hawsehole_interval(answer));
    return 0;
}
