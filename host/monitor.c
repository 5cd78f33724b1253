/* How a live monitor uses the library: it asks before the controller sends, then
 * takes what was sent.
 *
 * The controller runs document 01's printed case and is in a hurry: it would send
 * each record a clock sooner than the trace has it. The monitor prints HOLD with
 * record, number and interval for what it holds back, and SEND with record and clock
 * for what may go, with the beat on that clock. At the end it prints the verdict
 * that it came to. Exits 1 if the whole trace has another. */
#include "../include/hawsehole.h"
#include "printed.h"

#include <inttypes.h>
#include <stdbool.h>
#include <stdio.h>
#include <string.h>

enum { PERIOD = 7500, GRADE = 2, BANK = 1, ROW = 7, RECORD_BYTES = 16 };

struct monitor {
    uint64_t state[HAWSEHOLE_STATE_WORDS];
    uint8_t page[HAWSEHOLE_PAGE_BYTES];
};

static uint64_t ask(const struct monitor *m, const uint8_t *record)
{
    return hawsehole_ask(m->state, HAWSEHOLE_STATE_WORDS, record, RECORD_BYTES, m->page,
                         sizeof m->page, HAWSEHOLE_GRADE_133);
}

static void hold_back(uint64_t answer)
{
    printf("HOLD %" PRIu32 " %u %u\n", hawsehole_record(answer), hawsehole_number(answer),
           hawsehole_interval(answer));
}

/* Asks for the record with one clock fewer skipped before it, where one is: the first
 * three bytes count them. */
static void try_sooner(const struct monitor *m, const uint8_t *record)
{
    uint32_t skipped = (uint32_t)record[0] << 16 | (uint32_t)record[1] << 8 | record[2];
    uint8_t sooner[RECORD_BYTES];
    if (skipped == 0)
        return;
    memcpy(sooner, record, RECORD_BYTES);
    sooner[0] = (uint8_t)((skipped - 1) >> 16);
    sooner[1] = (uint8_t)((skipped - 1) >> 8);
    sooner[2] = (uint8_t)(skipped - 1);
    uint64_t answer = ask(m, sooner);
    if (hawsehole_number(answer) != 0)
        hold_back(answer);
}

static void print_beat(uint32_t k, const uint64_t *beat)
{
    printf("%c %" PRIu32 " %" PRIu64 " %u %u %u %02x\n",
           hawsehole_beat_kind(beat) == HAWSEHOLE_WRITE ? 'W' : 'R', k,
           hawsehole_beat_clock(beat), hawsehole_beat_bank(beat), hawsehole_beat_row(beat),
           hawsehole_beat_column(beat), hawsehole_beat_lanes(beat));
}

static void send_record(struct monitor *m, const uint8_t *record)
{
    uint64_t beat[HAWSEHOLE_BEAT_WORDS];
    uint64_t answer = hawsehole_take(m->state, HAWSEHOLE_STATE_WORDS, record, RECORD_BYTES, m->page,
                                     sizeof m->page, beat, HAWSEHOLE_BEAT_WORDS,
                                     HAWSEHOLE_GRADE_133);
    printf("SEND %" PRIu32 " %" PRIu64 "\n", hawsehole_record(answer), hawsehole_beat_clock(beat));
    if (hawsehole_beat_kind(beat) != HAWSEHOLE_NO_BEAT)
        print_beat(hawsehole_record(answer), beat);
}

/* Whether the whole trace gets this answer and leaves this page. */
static bool same_as_whole(const struct monitor *m, uint32_t sent, uint64_t answer)
{
    static uint8_t page[HAWSEHOLE_PAGE_BYTES];
    uint64_t whole = hawsehole_judge(printed_case, sizeof printed_case, page, sizeof page,
                                     HAWSEHOLE_GRADE_133);
    return hawsehole_number(whole) == hawsehole_number(answer) &&
           hawsehole_interval(whole) == hawsehole_interval(answer) &&
           hawsehole_record(whole) == sent && memcmp(page, m->page, sizeof page) == 0;
}

int main(void)
{
    static struct monitor m;
    uint64_t answer = hawsehole_start(m.state, HAWSEHOLE_STATE_WORDS, PERIOD, GRADE, BANK, ROW);
    uint32_t sent = 0;
    while (sent < PRINTED_RECORDS && hawsehole_number(answer) == 0) {
        const uint8_t *record = printed_case + RECORD_BYTES * (sent + 1);
        try_sooner(&m, record);
        answer = ask(&m, record);
        if (hawsehole_number(answer) == 0) {
            send_record(&m, record);
            sent++;
        }
    }
    if (hawsehole_number(answer) == 0)
        printf("OK %" PRIu32 "\n", sent);
    else
        printf("REFUSED %" PRIu32 " %u %u\n", sent, hawsehole_number(answer),
               hawsehole_interval(answer));
    return same_as_whole(&m, sent, answer) ? 0 : 1;
}
