/* Running a judge on a case, holding two outcomes together, counting. */
#include "cases.h"

#include <string.h>

static const uint64_t UNTOUCHED = 0xA5A5A5A5A5A5A5A5;

/* Words past the end of `beats` that are watched as well. */
enum { WATCHED_PAST_BEATS = 4 };

uint32_t answer_number(uint64_t answer)
{
    return (uint32_t)(answer & 0xFF);
}

uint32_t answer_interval(uint64_t answer)
{
    return (uint32_t)(answer >> 8 & 0xFF);
}

uint64_t answer_record(uint64_t answer)
{
    return answer >> 16 & 0xFFFFFF;
}

/* "A clean trace gives number 0 and its record count"; a refused record's
 * number is the count of those before it; 1 to 7 report record 0. */
size_t records_taken(uint64_t answer)
{
    return (size_t)answer_record(answer);
}

void fill_page(struct test_case *c, const uint8_t *bytes, size_t count)
{
    for (size_t i = 0; i < CASE_PAGE_ROOM; i += count)
        memcpy(c->page + i, bytes, i + count <= CASE_PAGE_ROOM ? count : CASE_PAGE_ROOM - i);
}

static size_t watched_beats(const struct test_case *c)
{
    return c->beats_len + WATCHED_PAST_BEATS;
}

size_t watched_bytes(const struct test_case *c)
{
    return offsetof(struct outcome, beats) + watched_beats(c) * sizeof(uint64_t);
}

void lend_case(const struct test_case *c, struct outcome *out)
{
    out->answer = UNTOUCHED;
    memcpy(out->page, c->page, CASE_PAGE_ROOM);
    for (size_t i = 0; i < watched_beats(c); i++)
        out->beats[i] = UNTOUCHED;
}

/* The trace is lent from the very end of a buffer, so that a sanitizer sees a
 * read past it. */
void judge_lent(judge_function *judge, const struct test_case *c, struct outcome *out)
{
    static uint8_t room[CASE_TRACE_ROOM];
    uint8_t *trace = room + (CASE_TRACE_ROOM - c->trace_len);
    memcpy(trace, c->trace, c->trace_len);
    out->answer = judge(trace, c->trace_len, out->page, c->page_len, out->beats, c->beats_len,
                        c->table);
}

void run_case(judge_function *judge, const struct test_case *c, struct outcome *out)
{
    lend_case(c, out);
    judge_lent(judge, c, out);
}

/* Whether the watched beats from this one on are as they were. */
static bool untouched_from(const struct test_case *c, const struct outcome *out, size_t from)
{
    for (size_t i = from; i < watched_beats(c); i++)
        if (out->beats[i] != UNTOUCHED)
            return false;
    return true;
}

static bool same_beats(const struct test_case *c, const struct outcome *a, const struct outcome *b)
{
    return memcmp(a->beats, b->beats, watched_beats(c) * sizeof a->beats[0]) == 0;
}

const char *difference(const struct test_case *c, const struct outcome *a, const struct outcome *b,
                       bool beats)
{
    if (a->answer != b->answer)
        return "answer";
    if (beats ? !same_beats(c, a, b) : !untouched_from(c, b, 0))
        return "beats";
    return memcmp(a->page, b->page, CASE_PAGE_ROOM) != 0 ? "page" : NULL;
}

bool kept_alone(const struct test_case *c, const struct outcome *out)
{
    size_t words = 2 * records_taken(out->answer);
    uint32_t number = answer_number(out->answer);
    size_t lent = number >= 1 && number <= 7 ? 0 : c->page_len;
    return untouched_from(c, out, words < c->beats_len ? words : c->beats_len) &&
           memcmp(out->page + lent, c->page + lent, CASE_PAGE_ROOM - lent) == 0;
}

static void count_beats(struct case_counts *counts, const struct test_case *c,
                        const struct outcome *out)
{
    size_t taken = records_taken(out->answer);
    for (size_t k = 0; k < taken && 2 * k < c->beats_len; k++) {
        uint64_t word = out->beats[2 * k];
        counts->read_beats += word >> 48 == 1;
        counts->write_beats += word >> 48 == 2;
        counts->masked_beats += word != 0 && (word & 0xFF) == 0;
    }
}

void count_case(struct case_counts *counts, const struct test_case *c, const struct outcome *out)
{
    counts->cases++;
    counts->records += records_taken(out->answer);
    counts->number[answer_number(out->answer) % CASE_NUMBERS]++;
    counts->interval[answer_interval(out->answer) % CASE_INTERVALS]++;
    counts->pages_changed += memcmp(out->page, c->page, CASE_PAGE_ROOM) != 0;
    count_beats(counts, c, out);
}

void print_counts(const struct case_counts *counts, FILE *to)
{
    static const char *const interval_name[9] = {"none", "tRCD", "tRAS", "tRC", "tRP",
                                                 "tRRD", "tRFC", "tWR",  "tMRD"};
    for (uint32_t n = 0; n < CASE_NUMBERS; n++)
        if (counts->number[n] != 0)
            fprintf(to, "number %2u: %10llu\n", n, (unsigned long long)counts->number[n]);
    for (uint32_t i = 1; i < 9; i++)
        fprintf(to, "interval %u %s: %10llu\n", i, interval_name[i],
                (unsigned long long)counts->interval[i]);
    fprintf(to, "records taken %llu, read beats %llu, write beats %llu, with lanes 00 %llu\n",
            (unsigned long long)counts->records, (unsigned long long)counts->read_beats,
            (unsigned long long)counts->write_beats, (unsigned long long)counts->masked_beats);
    fprintf(to, "pages changed %llu\n", (unsigned long long)counts->pages_changed);
}

bool counts_complete(const struct case_counts *counts)
{
    bool complete = true;
    for (uint32_t n = 1; n <= 22; n++)
        if (n != 8 && n != 9 && counts->number[n] == 0)
            complete = false;
    for (uint32_t i = 1; i <= 8; i++)
        if (counts->interval[i] == 0)
            complete = false;
    return complete;
}
