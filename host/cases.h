/* Cases: what a judge is given, what it leaves, and how often each number is
 * given. Nothing here knows a rule of document 01. */
#ifndef CASES_H
#define CASES_H

#include <stdbool.h>
#include <stddef.h>
#include <stdint.h>
#include <stdio.h>

enum {
    CASE_TRACE_ROOM = 65536,
    CASE_PAGE_ROOM = 16384 + 64,
    CASE_BEATS_ROOM = 2 * (CASE_TRACE_ROOM / 16) + 8,
    CASE_NUMBERS = 32,
    CASE_INTERVALS = 16
};

struct test_case {
    uint64_t table[13];
    uint64_t page_len;
    uint64_t trace_len;
    uint64_t beats_len;
    uint8_t page[CASE_PAGE_ROOM];
    uint8_t trace[CASE_TRACE_ROOM];
};

/* All that a judge leaves. What lies past the lent lengths is watched too. */
struct outcome {
    uint64_t answer;
    uint8_t page[CASE_PAGE_ROOM];
    uint64_t beats[CASE_BEATS_ROOM];
};

typedef uint64_t judge_function(const uint8_t *trace, size_t trace_len,
                                uint8_t *page, size_t page_len,
                                uint64_t *beats, size_t beats_len,
                                const uint64_t table[13]);

/* How often each number and each interval was the answer, and how much of the
 * beats and pages the cases reached. */
struct case_counts {
    uint64_t cases;
    uint64_t records; /* taken */
    uint64_t number[CASE_NUMBERS];
    uint64_t interval[CASE_INTERVALS];
    uint64_t read_beats;
    uint64_t write_beats;
    uint64_t masked_beats; /* reported with lanes 00 */
    uint64_t pages_changed;
};

uint32_t answer_number(uint64_t answer);
uint32_t answer_interval(uint64_t answer);
uint64_t answer_record(uint64_t answer);

/* How many records the judge took, and so how many pairs of beat words. */
size_t records_taken(uint64_t answer);

/* The lent page: the `count` bytes given, again and again. */
void fill_page(struct test_case *c, const uint8_t *bytes, size_t count);

/* The page and the beats as a judge gets them, with an answer that is none; what
 * it then leaves; both at once. */
void lend_case(const struct test_case *c, struct outcome *out);
void judge_lent(judge_function *judge, const struct test_case *c, struct outcome *out);
void run_case(judge_function *judge, const struct test_case *c, struct outcome *out);

/* The bytes of an outcome, from its start, that are lent and watched. */
size_t watched_bytes(const struct test_case *c);

/* The part in which two judges left something else, NULL for none. With no beats
 * the second of them must have left these as they were. */
const char *difference(const struct test_case *c, const struct outcome *a, const struct outcome *b,
                       bool beats);

/* Whether beats past those of the records taken, all beats and bytes past the
 * lent ones, and the page of a trace refused by 1 to 7 are as they were. */
bool kept_alone(const struct test_case *c, const struct outcome *out);

void count_case(struct case_counts *counts, const struct test_case *c, const struct outcome *out);
void print_counts(const struct case_counts *counts, FILE *to);

/* Whether every number of 1 to 7 and 10 to 22 and every interval of 1 to 8 was
 * given. 23 and 25 are left out: no whole trace gets them. */
bool counts_complete(const struct case_counts *counts);

#endif
