/* Hawsehole: judges a trace of what a memory controller did to one SDRAM module.
 *
 * Is every command legal by the data sheets, which record is the first illegal
 * one and why, which data beats ran on the bus, and what does one watched page
 * hold. Link with libhawsehole.a (x86-64 Linux; `make -C host lib` makes it).
 *
 *     uint8_t page[HAWSEHOLE_PAGE_BYTES] = {0};
 *     uint64_t answer = hawsehole_judge(trace, trace_len, page, sizeof page,
 *                                       HAWSEHOLE_GRADE_133);
 *     if (hawsehole_number(answer) != 0)
 *         printf("record %u is illegal\n", hawsehole_record(answer));
 *
 * Nothing is allocated, nothing is kept between calls, and calls on different
 * buffers may run at the same time.
 */
#ifndef HAWSEHOLE_H
#define HAWSEHOLE_H

#include <stddef.h>
#include <stdint.h>

#ifdef __cplusplus
extern "C" {
#endif

/* Goes up by one each time the arguments of a call change. */
#define HAWSEHOLE_API 1

/* The length that a lent page must have: 2,048 columns of 8 byte lanes. */
#define HAWSEHOLE_PAGE_BYTES 16384

/* The words of `beats` that belong to one record. */
#define HAWSEHOLE_BEAT_WORDS 2

/* The words of a state, for the calls that judge one record. */
#define HAWSEHOLE_STATE_WORDS 94

/* The speed tables of the two grades, for the parameters t1 to t13. */
#define HAWSEHOLE_GRADE_13E \
    7500, 7000, 37000, 120000000, 60000, 15000, 15000, 14000, 66000, 14000, 7000, 7812500, 2
#define HAWSEHOLE_GRADE_133 \
    10000, 7500, 44000, 120000000, 66000, 20000, 20000, 15000, 66000, 15000, 7500, 7812500, 2

/* Judges a whole trace.
 *
 * trace, trace_len  The bytes: a header of 16 and its records of 16 each. Read only.
 * page, page_len    The page of the watched bank and row as it was before the
 *                   trace, HAWSEHOLE_PAGE_BYTES long. Column c, lane i is byte
 *                   8c + i. What the records store goes into it.
 * t1 to t13         The speed table. It decides, not the grade that the header
 *                   names. In picoseconds, each 0 to 200,000,000, but for the last:
 *                     t1 tCK at CL 2      t2 tCK at CL 3
 *                     t3 tRAS min         t4 tRAS max (not below t3)
 *                     t5 tRC     t6 tRCD     t7 tRP     t8 tRRD
 *                     t9 tRFC    t10 tWR     t11 the auto precharge addition
 *                     t12 the refresh interval
 *                     t13 tMRD, in clocks, 0 to 15
 *
 * No pointer may be null, even where its length is 0, and the buffers must not
 * overlap.
 *
 * The answer is packed: hawsehole_number, hawsehole_interval and
 * hawsehole_record below read it.
 *
 *   number 0         The trace is clean. The record is the count of its records.
 *   number 1 to 7    Something is wrong with what was lent, not with a record:
 *                    1 the trace's length, 2 its version, 3 its period, 4 its grade,
 *                    5 a zero bit of its header, 6 the table, 7 the page's length.
 *                    The record is 0. The page is as it was.
 *   number 10 to 22  The record with that number, from 0, is the first illegal one.
 *                    The page holds the stores of the records before it. Nothing
 *                    after it was looked at.
 *                    10 a zero bit of the record, 11 CKE LOW, 12 refresh late,
 *                    13 a row open too long, 14 not at this start-up step, 15 bank
 *                    open or closed where it must not be, 16 a minimum not met (the
 *                    interval says which), 17 reserved mode word, 18 period below
 *                    tCK, 19 during an auto precharge burst, 20 data bus not clear,
 *                    21 auto precharge on a full-page burst, 22 auto precharge too
 *                    late. */
uint64_t hawsehole_judge(const uint8_t *trace, size_t trace_len,
                         uint8_t *page, size_t page_len,
                         uint64_t t1, uint64_t t2, uint64_t t3, uint64_t t4, uint64_t t5,
                         uint64_t t6, uint64_t t7, uint64_t t8, uint64_t t9, uint64_t t10,
                         uint64_t t11, uint64_t t12, uint64_t t13);

/* The same, and it reports the beat on the clock of each record that was taken.
 *
 * beats, beats_len  Two words for each record: beats[2k] and beats[2k + 1] belong
 *                   to record k, and the readers below take a pointer to the first
 *                   of them. beats_len counts words, and is right at any length: a
 *                   word that has no place is not written. The words of the first
 *                   illegal record and of all after it stay as they were, and on
 *                   numbers 1 to 7 all do. */
uint64_t hawsehole_judge_beats(const uint8_t *trace, size_t trace_len,
                               uint8_t *page, size_t page_len,
                               uint64_t *beats, size_t beats_len,
                               uint64_t t1, uint64_t t2, uint64_t t3, uint64_t t4, uint64_t t5,
                               uint64_t t6, uint64_t t7, uint64_t t8, uint64_t t9, uint64_t t10,
                               uint64_t t11, uint64_t t12, uint64_t t13);

/* ---- One record at a time: ask whether it may be sent, then take it ----
 *
 *     uint64_t state[HAWSEHOLE_STATE_WORDS], beat[HAWSEHOLE_BEAT_WORDS];
 *     hawsehole_start(state, HAWSEHOLE_STATE_WORDS, 7500, 2, 1, 7);
 *     while (next_record(record)) {
 *         uint64_t answer = hawsehole_ask(state, HAWSEHOLE_STATE_WORDS, record, 16,
 *                                         page, sizeof page, HAWSEHOLE_GRADE_133);
 *         if (hawsehole_number(answer) == 0)
 *             hawsehole_take(state, HAWSEHOLE_STATE_WORDS, record, 16, page, sizeof page,
 *                            beat, HAWSEHOLE_BEAT_WORDS, HAWSEHOLE_GRADE_133);
 *     }
 *
 * The state is all that the records taken so far leave for the next one. It belongs
 * to the caller, who may copy it and go back to it. Make states by these calls alone:
 * what a single word means may change from one library to the next. Records taken one
 * by one get the answers, the beats and the page that hawsehole_judge_beats gives for
 * the trace of them. */

/* The state before the first record of a trace with this period in picoseconds,
 * grade (1 -13E, 2 -133), watched bank and watched row.
 *
 * The answer is a number: 0, and every word of the state is written; or, tried in
 * this order, 3 the period, 4 the grade, 25 (state_len is not
 * HAWSEHOLE_STATE_WORDS, the bank is above 3 or the row above 8,191), and none is. */
uint64_t hawsehole_start(uint64_t *state, size_t state_len,
                         uint64_t period, uint64_t grade, uint64_t bank, uint64_t row);

/* Would this record be legal next? Changes nothing.
 *
 * state, state_len    The words that hawsehole_start or hawsehole_take left.
 * record, record_len  The record's 16 bytes.
 * page, page_len      The page. Of it the length alone is read.
 * t1 to t13           The speed table, as for hawsehole_judge.
 *
 * No pointer may be null, even where its length is 0.
 *
 * The answer is packed as hawsehole_judge's. But for the numbers that report
 * record 0, its record is the record's own number, from 0, modulo 2^24.
 *
 *   number 0         The record is legal.
 *   number 1, 3, 4, 6, 7 and 25
 *                    Something is wrong with what was lent. Tried in this order: 1 the
 *                    record is not 16 bytes long, 25 state_len is not
 *                    HAWSEHOLE_STATE_WORDS, 3 the state's period, 4 its grade, 6 the
 *                    table, 7 the page's length, 25 the words are not those of a
 *                    state, or it holds a clock above 2^40, a record number above
 *                    2^41, a time above 2^58 ps, a reserved mode word, or a bank, row
 *                    or column that the module has not. The record is 0.
 *   number 10 to 23  The record is illegal: as for hawsehole_judge, and 23, tried
 *                    directly after 10: the record's clock is above 2^40. */
uint64_t hawsehole_ask(const uint64_t *state, size_t state_len,
                       const uint8_t *record, size_t record_len,
                       const uint8_t *page, size_t page_len,
                       uint64_t t1, uint64_t t2, uint64_t t3, uint64_t t4, uint64_t t5,
                       uint64_t t6, uint64_t t7, uint64_t t8, uint64_t t9, uint64_t t10,
                       uint64_t t11, uint64_t t12, uint64_t t13);

/* The same answer, and takes the record where that is number 0: the words become
 * those of the next state, what the record stores goes into the page, and its beat
 * is reported. On every other number state, page and beat stay as they were.
 *
 * beat, beat_len  The record's two words, for the readers below. beat_len counts
 *                 words, and is right at any length: a word that has no place is not
 *                 written.
 *
 * The buffers must not overlap. */
uint64_t hawsehole_take(uint64_t *state, size_t state_len,
                        const uint8_t *record, size_t record_len,
                        uint8_t *page, size_t page_len,
                        uint64_t *beat, size_t beat_len,
                        uint64_t t1, uint64_t t2, uint64_t t3, uint64_t t4, uint64_t t5,
                        uint64_t t6, uint64_t t7, uint64_t t8, uint64_t t9, uint64_t t10,
                        uint64_t t11, uint64_t t12, uint64_t t13);

/* ---- The answer: number in bits 0 to 7, interval in 8 to 15, record in 16 to 39 ---- */

/* 0 for a clean trace or a legal record, else why not. */
static inline unsigned hawsehole_number(uint64_t answer)
{
    return (unsigned)(answer & 0xFF);
}

/* With number 16, the lowest minimum that was not met: 1 tRCD, 2 tRAS, 3 tRC,
 * 4 tRP, 5 tRRD, 6 tRFC, 7 tWR, 8 tMRD. Else 0. */
static inline unsigned hawsehole_interval(uint64_t answer)
{
    return (unsigned)(answer >> 8 & 0xFF);
}

/* Of a whole trace, the number of the first illegal record, or the count of records
 * where all are legal: in both cases how many records were taken. Of one record, its
 * own number modulo 2^24. */
static inline uint32_t hawsehole_record(uint64_t answer)
{
    return (uint32_t)(answer >> 16 & 0xFFFFFF);
}

/* ---- A record's beat: `beat` is beats + HAWSEHOLE_BEAT_WORDS * k, or what
 * hawsehole_take was lent ----
 *
 * First word: lanes in bits 0 to 7, column in 8 to 23, row in 24 to 39, bank in 40
 * to 47, kind in 48 to 55; all 0 for no beat. Second word: the record's clock. */

enum hawsehole_kind {
    HAWSEHOLE_NO_BEAT = 0,
    HAWSEHOLE_READ = 1, /* the module drives the bus */
    HAWSEHOLE_WRITE = 2 /* the module stores */
};

static inline enum hawsehole_kind hawsehole_beat_kind(const uint64_t *beat)
{
    return (enum hawsehole_kind)(beat[0] >> 48 & 0xFF);
}

static inline unsigned hawsehole_beat_bank(const uint64_t *beat)
{
    return (unsigned)(beat[0] >> 40 & 0xFF);
}

static inline unsigned hawsehole_beat_row(const uint64_t *beat)
{
    return (unsigned)(beat[0] >> 24 & 0xFFFF);
}

static inline unsigned hawsehole_beat_column(const uint64_t *beat)
{
    return (unsigned)(beat[0] >> 8 & 0xFFFF);
}

/* A bit for each byte lane that is stored or driven, lane 7 the top one. A beat
 * whose lanes are all masked has 0 here and still is one. */
static inline unsigned hawsehole_beat_lanes(const uint64_t *beat)
{
    return (unsigned)(beat[0] & 0xFF);
}

/* The clock on which the record stands, with a beat or without. */
static inline uint64_t hawsehole_beat_clock(const uint64_t *beat)
{
    return beat[1];
}

#ifdef __cplusplus
}
#endif

#endif
