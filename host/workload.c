/* Long clean traces to measure judges with: grade -133, period 7,500, every
 * record on its earliest clock, refreshes in time. The plain judge is asked
 * for the clocks. */
#include "workload.h"

#include "../include/hawsehole.h"
#include "draft.h"

enum { PERIOD = 7500, GRADE = 2, MODE_LENGTH_4 = 0x32, MODE_FULL_PAGE = 0x37 };

const uint64_t workload_table[13] = {HAWSEHOLE_GRADE_133};

const char *workload_name(enum workload w)
{
    static const char *const name[WORKLOADS] = {"long burst writes", "random access", "mostly NOP"};
    return name[w];
}

/* ---- Records ---- */

static struct draft command(struct making *m, uint64_t code, uint64_t bank, uint64_t address)
{
    struct draft r = {0, 1, code, bank, address, 0x00, 0, 0};
    r.dq = random_word(&m->random);
    return r;
}

static void put_first(struct making *m, struct draft r)
{
    earliest_skip(m, &r, &r.skip);
    put(m, &r);
}

/* On the next clock, or up to `most` clocks later. */
static void put_nop(struct making *m, uint64_t most)
{
    struct draft r = command(m, CODE_NOP, 0, 0);
    r.skip = random_below(&m->random, most + 1);
    put(m, &r);
}

static void start_up(struct making *m, uint64_t mode)
{
    put_first(m, command(m, CODE_PRECHARGE, 0, DRAFT_A10));
    put_first(m, command(m, CODE_AUTO_REFRESH, 0, 0));
    put_first(m, command(m, CODE_AUTO_REFRESH, 0, 0));
    put_first(m, command(m, CODE_LOAD_MODE, 0, mode));
}

static bool refresh_near(const struct making *m)
{
    return m->d.refresh_limit < (m->d.next_clock + 60) * m->d.period;
}

static bool full(const struct making *m)
{
    return 16 + 16 * m->records == m->room;
}

/* Whether NOPs must stop, so that the round ends before the refresh is late. */
static bool enough(const struct making *m)
{
    return refresh_near(m) || full(m);
}

static uint64_t random_column(struct making *m)
{
    return random_below(&m->random, 1024);
}

/* ---- Rounds: each begins and ends with every bank closed ---- */

/* A full page burst into the watched page, a beat on each clock, until the
 * next refresh. */
static void round_of_burst_writes(struct making *m)
{
    put_first(m, command(m, CODE_ACTIVE, m->watched_bank, m->watched_row));
    put_first(m, command(m, CODE_WRITE, m->watched_bank, random_column(m)));
    while (!enough(m))
        put_nop(m, 0);
    put_first(m, command(m, CODE_PRECHARGE, 0, DRAFT_A10));
}

/* ACTIVE of any bank and row, then a READ or WRITE with auto precharge. */
static void round_of_random_access(struct making *m)
{
    uint64_t bank = random_below(&m->random, 4);
    uint64_t code = random_chance(&m->random, 500) ? CODE_READ : CODE_WRITE;
    put_first(m, command(m, CODE_ACTIVE, bank, random_below(&m->random, 8192)));
    put_first(m, command(m, code, bank, DRAFT_A10 | random_column(m)));
}

/* A WRITE and a READ to the watched page between some sixty NOPs. */
static void round_of_mostly_nop(struct making *m)
{
    put_first(m, command(m, CODE_ACTIVE, m->watched_bank, m->watched_row));
    put_first(m, command(m, CODE_WRITE, m->watched_bank, random_column(m)));
    for (unsigned n = 0; n < 30 && !enough(m); n++)
        put_nop(m, 3);
    put_first(m, command(m, CODE_READ, m->watched_bank, random_column(m)));
    for (unsigned n = 0; n < 30 && !enough(m); n++)
        put_nop(m, 3);
    put_first(m, command(m, CODE_PRECHARGE, 0, DRAFT_A10));
}

size_t make_workload(enum workload w, size_t records, uint8_t trace[WORKLOAD_ROOM])
{
    typedef void round_of_records(struct making *m);
    static round_of_records *const rounds[WORKLOADS] = {
        round_of_burst_writes, round_of_random_access, round_of_mostly_nop};
    struct making m = {.random = {1}, .watched_bank = 1, .watched_row = 7};
    m.trace = trace;
    m.room = 16 + 16 * records;
    plain_begin(&m.d, PERIOD, workload_table);
    start_up(&m, w == BURST_WRITES ? MODE_FULL_PAGE : MODE_LENGTH_4);
    while (!full(&m)) {
        if (refresh_near(&m))
            put_first(&m, command(&m, CODE_AUTO_REFRESH, 0, 0));
        rounds[w](&m);
    }
    return write_header(&m, GRADE);
}
