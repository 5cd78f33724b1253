/* What the header alone promises: its readers take a word apart as design and
 * document 01 lay it out, its tables are 01's, and its sizes are right. Compiled as C
 * and as C++, and run without the library. */
#include "../include/hawsehole.h"

#include <stdio.h>

static int failed;

static void hold(const char *what, uint64_t is, uint64_t expected)
{
    if (is == expected)
        return;
    printf("%s is %llu and not %llu\n", what, (unsigned long long)is,
           (unsigned long long)expected);
    failed = 1;
}

/* 16, tMRD, record 65,534. */
static void hold_answer(void)
{
    uint64_t answer = (uint64_t)65534 << 16 | 8 << 8 | 16;
    hold("number", hawsehole_number(answer), 16);
    hold("interval", hawsehole_interval(answer), 8);
    hold("record", hawsehole_record(answer), 65534);
}

/* A write to bank 3, row 8,191, column 2,047, lanes 0 and 7, on clock 2^40. */
static void hold_beat(void)
{
    const uint64_t beat[HAWSEHOLE_BEAT_WORDS] = {
        (uint64_t)2 << 48 | (uint64_t)3 << 40 | (uint64_t)8191 << 24 | 2047 << 8 | 0x81,
        (uint64_t)1 << 40};
    const uint64_t none[HAWSEHOLE_BEAT_WORDS] = {0, 5};
    hold("kind", hawsehole_beat_kind(beat), HAWSEHOLE_WRITE);
    hold("bank", hawsehole_beat_bank(beat), 3);
    hold("row", hawsehole_beat_row(beat), 8191);
    hold("column", hawsehole_beat_column(beat), 2047);
    hold("lanes", hawsehole_beat_lanes(beat), 0x81);
    hold("clock", hawsehole_beat_clock(beat), (uint64_t)1 << 40);
    hold("kind of none", hawsehole_beat_kind(none), HAWSEHOLE_NO_BEAT);
    hold("clock with no beat", hawsehole_beat_clock(none), 5);
}

/* The rows of 01's speed table as it prints them: -13E, then -133. */
static void hold_tables(void)
{
    static const uint64_t row[13][2] = {
        {7500, 10000}, {7000, 7500},                      /* tCK at CL 2, CL 3 */
        {37000, 44000}, {120000000, 120000000},           /* tRAS min, max */
        {60000, 66000}, {15000, 20000}, {15000, 20000},   /* tRC, tRCD, tRP */
        {14000, 15000}, {66000, 66000}, {14000, 15000},   /* tRRD, tRFC, tWR */
        {7000, 7500}, {7812500, 7812500}, {2, 2}};        /* addition, refresh, tMRD */
    static const uint64_t grade[2][13] = {{HAWSEHOLE_GRADE_13E}, {HAWSEHOLE_GRADE_133}};
    for (int i = 0; i < 13; i++)
        for (int g = 0; g < 2; g++)
            hold("a number of a grade's table", grade[g][i], row[i][g]);
}

/* The sizes, and that a caller's arguments fit the calls: each is looked at, and none
 * is made. */
static void hold_calls(void)
{
    uint64_t state[HAWSEHOLE_STATE_WORDS], beat[HAWSEHOLE_BEAT_WORDS];
    uint8_t page[HAWSEHOLE_PAGE_BYTES];
    const uint8_t record[16] = {0};
    (void)state, (void)beat, (void)page, (void)record;
    hold("API", HAWSEHOLE_API, 1);
    hold("bytes of a state", sizeof state, 94 * 8);
    hold("bytes of a page", sizeof page, 8 * 2048);
    hold("a start's answer", sizeof hawsehole_start(state, HAWSEHOLE_STATE_WORDS, 7500, 2, 1, 7),
         8);
    hold("asking's answer",
         sizeof hawsehole_ask(state, HAWSEHOLE_STATE_WORDS, record, sizeof record, page,
                              sizeof page, HAWSEHOLE_GRADE_133),
         8);
    hold("taking's answer",
         sizeof hawsehole_take(state, HAWSEHOLE_STATE_WORDS, record, sizeof record, page,
                               sizeof page, beat, HAWSEHOLE_BEAT_WORDS, HAWSEHOLE_GRADE_13E),
         8);
}

int main(void)
{
    hold_answer();
    hold_beat();
    hold_tables();
    hold_calls();
    return failed;
}
