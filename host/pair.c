/* Holds hawsehole_start, hawsehole_ask and hawsehole_take to two other programs.
 *
 *   pair N SEED
 *
 * Each of the N cases, from a seed on, is a generated trace that is taken record by
 * record, and calls with odd states near those that it reached.
 *
 * - Each call is held to the one-record call in C (onerecord.c): the answers of
 *   asking and taking, every word of the state, every page byte, the beat words.
 *   Asking changes none of them, and neither does a record that is refused.
 * - Along the trace each answer, beat and page is what the second program gives for
 *   the whole of it.
 *
 * Exits 1 on a difference; with many cases also if a number or an interval was
 * never given. `pair 1 SEED` runs the one case that a line of differences names. */
#include "generate.h"
#include "odd.h"
#include "onerecord.h"
#include "second.h"

#include <inttypes.h>
#include <stdlib.h>
#include <string.h>

#ifdef C_JUDGES_ONLY
/* For sanitizers: the C call stands on both sides, and is held to the second
 * program alone. */
#define proved_start onerecord_start
#define proved_ask onerecord_ask
#define proved_take onerecord_take
#else
#include "proved.h"
#endif

enum {
    COMPLETE_FROM = 5000, /* cases from which on every number must be given */
    ODD_CALLS = 24,       /* of a case */
    BEAT_ROOM = 4,        /* words past the two are watched */
    LABEL_ROOM = 64,
    STATES_ROOM = CASE_TRACE_ROOM / 16 + 1 + ODD_CALLS
};

/* What the calls are lent and may change, with what lies past it. */
struct lent {
    uint64_t state[CALL_STATE_ROOM];
    uint8_t page[CASE_PAGE_ROOM];
    uint64_t beat[BEAT_ROOM];
};

struct counts {
    uint64_t calls;
    uint64_t number[CASE_NUMBERS];
    uint64_t interval[CASE_INTERVALS];
    uint64_t read_beats;
    uint64_t write_beats;
};

struct run {
    uint64_t cases;
    uint64_t seed;
    uint64_t differ;
    uint64_t unwalked; /* traces that 1, 2 or 5 refuses: what those read is in no state */
    struct counts traces;
    struct counts odd;
    struct counts starts;
};

static struct lent proved;
static struct lent expected;

/* The states that the trace of this case reached, from the start on, and those that
 * records left of odd states. */
static uint64_t reached[STATES_ROOM][STATE_WORDS];
static size_t reached_count;

/* ---- Differences ---- */

static void print_answer(const char *name, uint64_t answer)
{
    printf(", %s: number %u record %" PRIu64 " interval %u", name, answer_number(answer),
           answer_record(answer), answer_interval(answer));
}

static bool differ(const char *label, const char *what)
{
    printf("%s: %s\n", label, what);
    return false;
}

/* The first word of the state in which the two sides differ, as many as there are
 * for none. */
static unsigned word_differing(void)
{
    unsigned i = 0;
    while (i < CALL_STATE_ROOM && proved.state[i] == expected.state[i])
        i++;
    return i;
}

/* Both sides left the same of this call. */
static bool parts_agree(const char *label, const char *call)
{
    unsigned i = word_differing();
    if (i < CALL_STATE_ROOM)
        printf("%s, %s: word %u is %" PRIu64 " and not %" PRIu64 "\n", label, call, i,
               proved.state[i], expected.state[i]);
    else if (memcmp(proved.beat, expected.beat, sizeof proved.beat) != 0)
        printf("%s, %s: the beat differs\n", label, call);
    else if (memcmp(proved.page, expected.page, sizeof proved.page) != 0)
        printf("%s, %s: the page differs\n", label, call);
    else
        return true;
    return false;
}

static bool answers_agree(const char *label, uint64_t answer, uint64_t asked, uint64_t taken)
{
    if (asked == answer && taken == answer)
        return true;
    printf("%s: the answer differs", label);
    print_answer("expected", answer);
    print_answer("asked", asked);
    print_answer("taken", taken);
    printf("\n");
    return false;
}

/* ---- One call ---- */

static void lend(struct lent *l, const uint64_t state[CALL_STATE_ROOM])
{
    memcpy(l->state, state, sizeof l->state);
    memset(l->beat, 0xA5, sizeof l->beat);
}

/* Both sides are lent the same page; it goes on from call to call. After a
 * difference both go on with what was expected. */
static bool call_agrees(const struct call *c, const char *label, uint64_t *answer)
{
    static uint8_t room[CALL_RECORD_ROOM];
    uint8_t *record = room + CALL_RECORD_ROOM - c->record_len; /* its end is the room's */
    memcpy(record, c->record, c->record_len);
    lend(&proved, c->state);
    lend(&expected, c->state);
    uint64_t asked = proved_ask(proved.state, c->state_len, record, c->record_len, proved.page,
                                c->page_len, c->table);
    bool agree = parts_agree(label, "asking");
    uint64_t taken = proved_take(proved.state, c->state_len, record, c->record_len, proved.page,
                                 c->page_len, proved.beat, c->beat_len, c->table);
    *answer = onerecord_take(expected.state, c->state_len, record, c->record_len, expected.page,
                             c->page_len, expected.beat, c->beat_len, c->table);
    agree = answers_agree(label, *answer, asked, taken) && agree;
    agree = parts_agree(label, "taking") && agree;
    if (!agree)
        proved = expected;
    return agree;
}

/* The state before the start is no state at all. */
static bool start_agrees(const struct start_call *c, const char *label, uint64_t *answer)
{
    uint64_t before[CALL_STATE_ROOM];
    memset(before, 0xA5, sizeof before);
    lend(&proved, before);
    lend(&expected, before);
    uint64_t started = proved_start(proved.state, c->state_len, c->period, c->grade, c->bank,
                                    c->row);
    *answer = onerecord_start(expected.state, c->state_len, c->period, c->grade, c->bank, c->row);
    bool agree = answers_agree(label, *answer, started, started);
    agree = parts_agree(label, "starting") && agree;
    if (!agree)
        proved = expected;
    return agree;
}

/* ---- Counting ---- */

static void count_answer(struct counts *counts, uint64_t answer)
{
    counts->calls++;
    counts->number[answer_number(answer) % CASE_NUMBERS]++;
    counts->interval[answer_interval(answer) % CASE_INTERVALS]++;
}

/* A call's answer, and its beat where there is room for one. */
static void count_call(struct counts *counts, const struct call *c, uint64_t answer)
{
    count_answer(counts, answer);
    if (answer_number(answer) != 0 || c->beat_len == 0)
        return;
    counts->read_beats += expected.beat[0] >> 48 == 1;
    counts->write_beats += expected.beat[0] >> 48 == 2;
}

/* Every number whose bit is set was given, and with 16 every interval. */
static bool all_given(const struct counts *counts, uint64_t numbers)
{
    for (unsigned n = 0; n < CASE_NUMBERS; n++)
        if ((numbers >> n & 1) != 0 && counts->number[n] == 0)
            return false;
    for (unsigned i = 1; i <= 8; i++)
        if ((numbers >> 16 & 1) != 0 && counts->interval[i] == 0)
            return false;
    return true;
}

/* The numbers that each kind of call can give: a trace's records 0, 6, 7 and 10 to
 * 22; an odd state also 1, 3, 4, 23 and 25; a start 0, 3, 4 and 25. */
static bool counts_are_complete(const struct run *r)
{
    uint64_t in_traces = 0x7FFCC1;
    uint64_t of_odd = in_traces | 1u << 1 | 1u << 3 | 1u << 4 | 1u << 23 | 1u << 25;
    uint64_t of_starts = 1u | 1u << 3 | 1u << 4 | 1u << 25;
    return all_given(&r->traces, in_traces) && all_given(&r->odd, of_odd) &&
           all_given(&r->starts, of_starts);
}

/* ---- A trace, record by record ---- */

/* period 24 bits from bit 8 on, grade 8 from 48, bank 2 from 56, row 13 from 58 */
static struct start_call start_of(const uint8_t *trace)
{
    struct start_call c;
    c.state_len = STATE_WORDS;
    c.period = (uint64_t)trace[1] << 16 | (uint64_t)trace[2] << 8 | trace[3];
    c.grade = trace[6];
    c.bank = trace[7] >> 6;
    c.row = (uint64_t)(trace[7] & 0x3F) << 7 | trace[8] >> 1;
    return c;
}

static struct call call_of(const struct test_case *t, size_t k)
{
    struct call c;
    memcpy(c.table, t->table, sizeof c.table);
    memcpy(c.state, expected.state, sizeof c.state);
    memcpy(c.record, t->trace + 16 * (k + 1), 16);
    c.state_len = STATE_WORDS;
    c.record_len = 16;
    c.page_len = t->page_len;
    c.beat_len = 2;
    return c;
}

/* The page as the second program's beat leaves it: kind, bank, row, column and
 * lanes are those of the beat word, and the data are the record's. */
static void store_beat(uint64_t word, const struct start_call *watched, const uint8_t *record,
                       uint8_t *page)
{
    bool stored = word >> 48 == 2 && (word >> 40 & 0xFF) == watched->bank &&
                  (word >> 24 & 0xFFFF) == watched->row;
    for (unsigned lane = 0; lane < 8 && stored; lane++)
        if ((word >> lane & 1) != 0)
            page[8 * (word >> 8 & 0xFFFF) + lane] = record[15 - lane];
}

static void keep_state(void)
{
    memcpy(reached[reached_count++], expected.state, sizeof reached[0]);
}

/* Record k as the second program has it: its answer, the beat and the page. */
static bool record_agrees(const struct outcome *second, size_t k, uint64_t answer,
                          const uint8_t *page, const char *label)
{
    bool taken = k < records_taken(second->answer);
    if (answer != (taken ? (uint64_t)k << 16 : second->answer))
        return differ(label, "the second program has another answer");
    if (taken && memcmp(expected.beat, second->beats + 2 * k, 2 * sizeof(uint64_t)) != 0)
        return differ(label, "the second program has another beat");
    if (memcmp(expected.page, page, sizeof expected.page) != 0)
        return differ(label, "the second program's beats give another page");
    return true;
}

/* The records up to the first that is refused. False at the first difference. */
static bool records_agree(struct run *r, const struct test_case *t, const struct outcome *second,
                          const struct start_call *start, uint64_t seed)
{
    static uint8_t page[CASE_PAGE_ROOM]; /* by the second program's beats */
    char label[LABEL_ROOM];
    uint64_t answer = 0;
    memcpy(page, t->page, sizeof page);
    for (size_t k = 0; k < t->trace_len / 16 - 1 && answer_number(answer) == 0; k++) {
        struct call c = call_of(t, k);
        snprintf(label, sizeof label, "seed %" PRIu64 ", record %zu", seed, k);
        bool agree = call_agrees(&c, label, &answer);
        count_call(&r->traces, &c, answer);
        if (k < records_taken(second->answer))
            store_beat(second->beats[2 * k], start, c.record, page);
        if (!record_agrees(second, k, answer, page, label) || !agree)
            return false;
        keep_state();
    }
    snprintf(label, sizeof label, "seed %" PRIu64 ", end", seed);
    return memcmp(expected.page, second->page, sizeof expected.page) == 0 ||
           differ(label, "the second program leaves another page");
}

/* Room for every beat of the second program, however many the case lends. */
static bool trace_agrees(struct run *r, struct test_case *t, uint64_t seed)
{
    static struct outcome second;
    char label[LABEL_ROOM];
    uint64_t answer;
    t->beats_len = 2 * (t->trace_len / 16);
    run_case(second_judge, t, &second);
    uint32_t number = answer_number(second.answer);
    if (number == 1 || number == 2 || number == 5) {
        r->unwalked++;
        return true;
    }
    struct start_call start = start_of(t->trace);
    snprintf(label, sizeof label, "seed %" PRIu64 ", start", seed);
    bool agree = start_agrees(&start, label, &answer);
    count_answer(&r->starts, answer);
    if (answer != (number == 3 || number == 4 ? number : 0))
        return differ(label, "the second program has another answer");
    if (!agree || answer != 0)
        return agree;
    keep_state();
    return records_agree(r, t, &second, &start, seed);
}

/* ---- Odd states ---- */

static bool odd_agrees(struct run *r, const struct test_case *t, struct random *random,
                       uint64_t seed, unsigned k)
{
    struct call c;
    char label[LABEL_ROOM];
    uint64_t answer;
    const uint64_t *near = NULL;
    if (reached_count != 0)
        near = reached[random_below(random, reached_count)];
    if (random_chance(random, 700) && reached_count > 8) /* start-up is behind */
        near = reached[random_between(random, 8, reached_count - 1)];
    make_odd(random, near, t->table, &c);
    snprintf(label, sizeof label, "seed %" PRIu64 ", odd state %u", seed, k);
    bool agree = call_agrees(&c, label, &answer);
    count_call(&r->odd, &c, answer);
    if (answer_number(answer) == 0)
        keep_state();
    return agree;
}

static bool odd_start_agrees(struct run *r, struct random *random, uint64_t seed)
{
    struct start_call c;
    char label[LABEL_ROOM];
    uint64_t answer;
    make_odd_start(random, &c);
    snprintf(label, sizeof label, "seed %" PRIu64 ", odd start", seed);
    bool agree = start_agrees(&c, label, &answer);
    count_answer(&r->starts, answer);
    return agree;
}

/* ---- The cases ---- */

static bool case_agrees(struct run *r, uint64_t seed)
{
    static struct test_case t;
    struct random random = {~seed * 0xD1342543DE82EF95}; /* not the generator's */
    generate(seed, &t);
    memcpy(proved.page, t.page, sizeof t.page);
    memcpy(expected.page, t.page, sizeof t.page);
    reached_count = 0;
    bool agree = trace_agrees(r, &t, seed);
    for (unsigned k = 0; k < ODD_CALLS; k++)
        agree = odd_agrees(r, &t, &random, seed, k) && agree;
    return odd_start_agrees(r, &random, seed) && agree;
}

static void print_row(const char *name, unsigned key, const uint64_t of[3])
{
    printf("%-8s%2u %10" PRIu64 " %10" PRIu64 " %10" PRIu64 "\n", name, key, of[0], of[1], of[2]);
}

static int print_result(const struct run *r)
{
    printf("%10s %10s %10s %10s\n", "", "in traces", "odd states", "starts");
    for (unsigned n = 0; n < CASE_NUMBERS; n++) {
        uint64_t of[3] = {r->traces.number[n], r->odd.number[n], r->starts.number[n]};
        if ((of[0] | of[1] | of[2]) != 0)
            print_row("number", n, of);
    }
    for (unsigned i = 1; i <= 8; i++) {
        uint64_t of[3] = {r->traces.interval[i], r->odd.interval[i], r->starts.interval[i]};
        print_row("interval", i, of);
    }
    uint64_t reads[3] = {r->traces.read_beats, r->odd.read_beats, 0};
    uint64_t writes[3] = {r->traces.write_beats, r->odd.write_beats, 0};
    print_row("kind", 1, reads);
    print_row("kind", 2, writes);
    printf("%" PRIu64 " traces not walked: 1, 2 or 5\n", r->unwalked);
    bool complete = r->cases < COMPLETE_FROM || counts_are_complete(r);
    if (!complete)
        printf("some number or interval was never given\n");
    printf("%" PRIu64 " cases from seed %" PRIu64 ", %" PRIu64 " records of traces, %" PRIu64
           " odd states, %" PRIu64 " differ\n",
           r->cases, r->seed, r->traces.calls, r->odd.calls, r->differ);
    return r->differ == 0 && complete ? 0 : 1;
}

static bool read_number(const char *word, uint64_t *number)
{
    char *end;
    *number = strtoull(word, &end, 10);
    return end != word && *end == '\0';
}

int main(int argc, char **argv)
{
    static struct run r;
    if (argc != 3 || !read_number(argv[1], &r.cases) || !read_number(argv[2], &r.seed)) {
        fprintf(stderr, "usage: pair N SEED\n");
        return 2;
    }
    for (uint64_t k = 0; k < r.cases; k++)
        r.differ += !case_agrees(&r, r.seed + k);
    return print_result(&r);
}
