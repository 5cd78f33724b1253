/* The one-record call of document 01, for every content of the state's words.
 *
 * "The rules are read on the state's own parts, so a state that no trace reaches
 * has one fixed answer too." Each question below is asked of the part that 01
 * names, and of nothing else: a burst may lie ahead, a bank may be open with no
 * last ACTIVE, four READs may all have beats to come. How 01 is read there is in
 * docs/DECISIONS.md, reading 13. */
#include "onerecord.h"

#include "words.h"

#include <string.h>

#define CLOCK_MAX ((uint64_t)1 << 40)
#define NUMBER_MAX ((uint64_t)1 << 41)
#define TIME_MAX ((uint64_t)1 << 58)

enum {
    RECORD_BYTES = 16,
    LANES = 8,
    ROWS = 8192,
    COLUMNS = 2048,
    PAGE_BYTES = LANES * COLUMNS,
    ALL_HIGH = 0xFF,
    NO_BURST_MODE = 0x30 /* of a place that holds no burst */
};

/* The places of the speed table, read row by row. */
enum {
    TCK_CL2, TCK_CL3, TRAS_MIN, TRAS_MAX, TRC, TRCD, TRP, TRRD, TRFC, TWR,
    ADDITION, REFRESH_INTERVAL, TMRD
};

/* The intervals of number 16. */
enum {
    INTERVAL_TRCD = 1, INTERVAL_TRAS, INTERVAL_TRC, INTERVAL_TRP, INTERVAL_TRRD, INTERVAL_TRFC,
    INTERVAL_TWR, INTERVAL_TMRD
};

/* CS#, RAS#, CAS#, WE# as 003 table 8 has them; 8 to 15 are COMMAND INHIBIT. */
enum {
    LOAD_MODE, AUTO_REFRESH, PRECHARGE, ACTIVE, WRITE, READ, BURST_TERMINATE, NOP
};

struct record {
    uint64_t skipped;
    bool cke;
    uint64_t command;
    uint64_t bank;
    uint64_t address; /* A12 to A0 */
    uint64_t masks;   /* DQMB7 to DQMB0, HIGH is 1 */
    uint64_t zeros;
    uint64_t dq;
};

/* What every question is asked of: a state, and a record on a clock of its own. */
struct question {
    const struct state *s;
    const struct record *r;
    const uint64_t *table;
    uint64_t clock;
    uint64_t now; /* that clock in ps */
};

struct beat {
    uint64_t kind; /* 0 none, 1 read, 2 write */
    uint64_t bank;
    uint64_t row;
    uint64_t column;
    uint64_t lanes;
};

/* ---- The record ---- */

static uint64_t bits_from(const uint8_t *bytes, unsigned first, unsigned count)
{
    uint64_t number = 0;
    for (unsigned i = first; i < first + count; i++)
        number = number << 1 | (bytes[i / 8] >> (7 - i % 8) & 1u);
    return number;
}

/* skipped clocks 24, CKE 1, CS# RAS# CAS# WE# 4, BA 2, A12 to A0 13, DQMB 8,
 * zeros 12, DQ 64, most significant bit first */
static struct record read_record(const uint8_t *bytes)
{
    struct record r;
    r.skipped = bits_from(bytes, 0, 24);
    r.cke = bits_from(bytes, 24, 1) != 0;
    r.command = bits_from(bytes, 25, 4);
    r.bank = bits_from(bytes, 29, 2);
    r.address = bits_from(bytes, 31, 13);
    r.masks = bits_from(bytes, 44, 8);
    r.zeros = bits_from(bytes, 52, 12);
    r.dq = bits_from(bytes, 64, 64);
    return r;
}

static bool a10(const struct record *r)
{
    return (r->address >> 10 & 1) != 0;
}

static bool is_access(const struct record *r)
{
    return r->command == READ || r->command == WRITE;
}

static bool asks_auto_precharge(const struct record *r)
{
    return is_access(r) && a10(r);
}

/* "PRECHARGE, one bank or (A10 HIGH) each of the four" */
static bool precharges(const struct record *r, uint64_t bank)
{
    return r->command == PRECHARGE && (a10(r) || r->bank == bank);
}

static bool is_precharge_all(const struct record *r)
{
    return r->command == PRECHARGE && a10(r);
}

/* "Column is A11 then A9 to A0; A12 is ignored." */
static uint64_t column_of(const struct record *r)
{
    return (r->address >> 11 & 1) << 10 | (r->address & 0x3FF);
}

/* ---- The mode word ---- */

static bool full_page(uint64_t mode)
{
    return (mode & 7) == 7;
}

/* "0, 1, 2, 3 mean 1, 2, 4, 8"; in full page the row's columns */
static uint64_t length_of(uint64_t mode)
{
    return full_page(mode) ? COLUMNS : (uint64_t)1 << (mode & 7);
}

static bool interleaved(uint64_t mode)
{
    return (mode >> 3 & 1) != 0;
}

static uint64_t latency(uint64_t mode)
{
    return mode >> 4 & 7;
}

/* "M9 = 1 makes writes single." */
static bool single(uint64_t mode)
{
    return (mode >> 9 & 1) != 0;
}

static uint64_t write_length(uint64_t mode)
{
    return single(mode) ? 1 : length_of(mode);
}

static bool reserved(uint64_t mode)
{
    bool length_named = (mode & 7) < 4 || (full_page(mode) && !interleaved(mode));
    bool latency_named = latency(mode) == 2 || latency(mode) == 3;
    bool others_zero = (mode & ~(uint64_t)0x27F) == 0;
    return !(length_named && latency_named && others_zero);
}

/* ---- 25: what a state may hold ---- */

static bool clock_fits(uint64_t clock)
{
    return clock <= CLOCK_MAX;
}

static bool event_fits(const struct event *e)
{
    return !e->been || clock_fits(e->clock);
}

/* Also of a burst that is no longer live. */
static bool burst_fits(const struct burst *b)
{
    return b->bank < STATE_BANKS && b->row < ROWS && b->column < COLUMNS && clock_fits(b->start) &&
           event_fits(&b->cut) && !reserved(b->mode);
}

static bool bank_fits(const struct bank *b)
{
    if (b->status == OPEN && (b->row >= ROWS || !clock_fits(b->opened)))
        return false;
    if (b->status == CLOSED && b->closing > TIME_MAX)
        return false;
    return event_fits(&b->active) && event_fits(&b->stored);
}

/* "the state holds a clock above 2^40, a record number above 2^41, a time above
 * 2^58 ps, a reserved mode word, or a bank, row or column off the module" */
static bool state_fits(const struct state *s)
{
    if (s->watched_bank >= STATE_BANKS || s->watched_row >= ROWS || s->number > NUMBER_MAX)
        return false;
    if (!event_fits(&s->last) || !event_fits(&s->precharge_all))
        return false;
    if (s->refreshes != 0 && !clock_fits(s->refresh))
        return false;
    if (s->loaded && (reserved(s->mode) || !clock_fits(s->load)))
        return false;
    if (!burst_fits(&s->write))
        return false;
    for (unsigned i = 0; i < STATE_READS; i++)
        if (!burst_fits(&s->read[i]))
            return false;
    for (unsigned i = 0; i < STATE_BANKS; i++)
        if (!bank_fits(&s->bank[i]))
            return false;
    return true;
}

/* Words that hold a state are those that this state is written as. */
static bool words_hold(const uint64_t *words, const struct state *s)
{
    uint64_t written[STATE_WORDS];
    write_words(s, written);
    return memcmp(words, written, sizeof written) == 0;
}

/* ---- What is tried before the record is looked at: 1, 3, 4, 6, 7, 25 ---- */

static bool table_in_bounds(const uint64_t *table)
{
    for (unsigned i = 0; i < TMRD; i++)
        if (table[i] > 200000000)
            return false;
    return table[TMRD] <= 15 && table[TRAS_MIN] <= table[TRAS_MAX];
}

static bool period_fits(uint64_t period)
{
    return period >= 1000 && period <= 65535;
}

static bool grade_known(uint64_t grade)
{
    return grade == 1 || grade == 2;
}

/* 0 if the record may be looked at; the state is then in `s`. */
static uint64_t entry_number(const uint64_t *words, size_t words_len, size_t record_len,
                             size_t page_len, const uint64_t *table, struct state *s)
{
    if (record_len != RECORD_BYTES)
        return 1;
    if (words_len != STATE_WORDS)
        return 25;
    read_words(words, s);
    if (!period_fits(s->period))
        return 3;
    if (!grade_known(s->grade))
        return 4;
    if (!table_in_bounds(table))
        return 6;
    if (page_len != PAGE_BYTES)
        return 7;
    return words_hold(words, s) && state_fits(s) ? 0 : 25;
}

/* ---- Beats ---- */

/* Beat i is "lost if .. stands at x with w < x <= w + i". */
static bool lost(const struct burst *b, uint64_t i)
{
    return b->cut.been && b->start < b->cut.clock && b->cut.clock <= b->start + i;
}

/* "WRITE at w: beat i on w + i"; a burst ahead has none yet. */
static bool writes_on(const struct burst *b, uint64_t n)
{
    if (!b->live || n < b->start || lost(b, n - b->start))
        return false;
    bool endless = full_page(b->mode) && !single(b->mode);
    return endless || n - b->start < write_length(b->mode);
}

static bool fetches(const struct burst *b, uint64_t i)
{
    return b->live && !lost(b, i) && (full_page(b->mode) || i < length_of(b->mode));
}

static uint64_t first_beat(const struct burst *b)
{
    return b->start + latency(b->mode);
}

/* "READ at r: beat i on r + CL + i" */
static bool reads_on(const struct burst *b, uint64_t n)
{
    return n >= first_beat(b) && fetches(b, n - first_beat(b));
}

/* Some beat falls on clock n or later. Whatever loses one loses all after it, so
 * the first of them tells. */
static bool to_come(const struct burst *b, uint64_t n)
{
    return fetches(b, n > first_beat(b) ? n - first_beat(b) : 0);
}

/* The masks on clock n before the record: "A skipped clock had .. all masks
 * HIGH", and so had every clock before the first record. */
static uint64_t masks_on(const struct state *s, uint64_t n)
{
    if (!s->last.been || n > s->last.clock || s->last.clock - n > 2)
        return ALL_HIGH;
    return s->masks[s->last.clock - n];
}

/* "Full page wraps at 2,048 columns"; a shorter burst stays in its block. */
static uint64_t beat_column(const struct burst *b, uint64_t i)
{
    uint64_t length = length_of(b->mode);
    uint64_t place = b->column % length;
    uint64_t moved = interleaved(b->mode) ? place ^ i : place + i;
    return b->column - place + moved % length;
}

static struct beat beat_of(uint64_t kind, const struct burst *b, uint64_t i, uint64_t masks)
{
    struct beat beat = {kind, b->bank, b->row, beat_column(b, i), ~masks & ALL_HIGH};
    return beat;
}

/* The READ whose beat falls on clock n, NULL for none. Of several "the latest
 * READ"; of two registered on one clock the first. */
static const struct burst *read_on(const struct burst *read, uint64_t n)
{
    const struct burst *found = NULL;
    for (unsigned i = 0; i < STATE_READS; i++)
        if (reads_on(&read[i], n) && (found == NULL || found->start < read[i].start))
            found = &read[i];
    return found;
}

/* The beat on the record's own clock, of the bursts that it leaves: a WRITE's
 * before a READ's. "Lanes with DQMB LOW on that clock are stored"; "a lane is
 * driven if its DQMB was LOW two clocks earlier". */
static struct beat reported_beat(const struct question *q, const struct state *next)
{
    struct beat none = {0, 0, 0, 0, 0};
    if (writes_on(&next->write, q->clock))
        return beat_of(2, &next->write, q->clock - next->write.start, q->r->masks);
    const struct burst *b = read_on(next->read, q->clock);
    if (b == NULL)
        return none;
    return beat_of(1, b, q->clock - first_beat(b), masks_on(q->s, q->clock - 2));
}

/* ---- 12, 13 and 14 ---- */

/* A maximum since a clock is passed; not where that clock is ahead. */
static bool passed(const struct question *q, uint64_t clock, uint64_t maximum)
{
    return q->now > clock * q->s->period + maximum;
}

static bool refresh_late(const struct question *q)
{
    return q->s->refreshes == 2 && passed(q, q->s->refresh, q->table[REFRESH_INTERVAL]);
}

static bool row_open_too_long(const struct question *q)
{
    for (unsigned i = 0; i < STATE_BANKS; i++) {
        const struct bank *b = &q->s->bank[i];
        if (b->status == OPEN && passed(q, b->opened, q->table[TRAS_MAX]))
            return true;
    }
    return false;
}

/* The steps in 01's order: the first PRECHARGE ALL, two refreshes, a mode. */
static bool allowed_at_start_up(const struct question *q)
{
    if (!q->s->precharge_all.been)
        return is_precharge_all(q->r) && q->now >= 100000000;
    if (q->r->command == PRECHARGE || q->r->command == AUTO_REFRESH)
        return true;
    return q->s->refreshes == 2 && (q->r->command == LOAD_MODE || q->s->loaded);
}

/* ---- 15: a bank not started is neither open nor closed ---- */

static bool every_bank_closed(const struct state *s)
{
    for (unsigned i = 0; i < STATE_BANKS; i++)
        if (s->bank[i].status != CLOSED)
            return false;
    return true;
}

static bool wrong_bank(const struct question *q)
{
    enum status own = q->s->bank[q->r->bank].status;
    switch (q->r->command) {
    case ACTIVE:
        return own != CLOSED;
    case READ:
    case WRITE:
        return own != OPEN;
    case AUTO_REFRESH:
    case LOAD_MODE:
        return !every_bank_closed(q->s);
    default:
        return false;
    }
}

/* ---- 16: a bit for each interval whose minimum is not met ---- */

/* Since a time: "its minimum is not met before it, not even a minimum of 0". */
static unsigned since_time(const struct question *q, unsigned interval, uint64_t time,
                           uint64_t minimum)
{
    return q->now < time + minimum ? 1u << interval : 0;
}

static unsigned since_clock(const struct question *q, unsigned interval, uint64_t clock,
                            uint64_t minimum)
{
    return since_time(q, interval, clock * q->s->period, minimum);
}

/* "A minimum is met if its event has never occurred." */
static unsigned since_event(const struct question *q, unsigned interval, const struct event *e,
                            uint64_t minimum)
{
    return e->been ? since_clock(q, interval, e->clock, minimum) : 0;
}

static unsigned since_closing(const struct question *q, const struct bank *b)
{
    return b->status == CLOSED ? since_time(q, INTERVAL_TRP, b->closing, q->table[TRP]) : 0;
}

/* "Any executable command: tRFC since the last refresh, tMRD since the last mode
 * load, tRP since the last PRECHARGE ALL." */
static unsigned of_any(const struct question *q)
{
    unsigned short_of = since_event(q, INTERVAL_TRP, &q->s->precharge_all, q->table[TRP]);
    if (q->s->refreshes != 0)
        short_of |= since_clock(q, INTERVAL_TRFC, q->s->refresh, q->table[TRFC]);
    if (q->s->loaded)
        short_of |= since_clock(q, INTERVAL_TMRD, q->s->load, q->table[TMRD] * q->s->period);
    return short_of;
}

/* "tRP since its closing; tRC since its last ACTIVE; tRRD since the last ACTIVE of
 * another bank" */
static unsigned of_active(const struct question *q)
{
    const struct bank *own = &q->s->bank[q->r->bank];
    unsigned short_of = since_closing(q, own) |
                        since_event(q, INTERVAL_TRC, &own->active, q->table[TRC]);
    for (unsigned i = 0; i < STATE_BANKS; i++)
        if (i != q->r->bank)
            short_of |= since_event(q, INTERVAL_TRRD, &q->s->bank[i].active, q->table[TRRD]);
    return short_of;
}

/* "an open bank needs tRAS min, and tWR since the last clock on which a byte was
 * stored in it after its ACTIVE"; "a closed bank needs tRP since its closing" */
static unsigned of_precharge(const struct question *q)
{
    unsigned short_of = 0;
    for (unsigned i = 0; i < STATE_BANKS; i++) {
        const struct bank *b = &q->s->bank[i];
        if (!precharges(q->r, i))
            continue;
        short_of |= since_closing(q, b);
        if (b->status != OPEN)
            continue;
        short_of |= since_clock(q, INTERVAL_TRAS, b->opened, q->table[TRAS_MIN]);
        if (b->stored.been && b->stored.clock > b->opened)
            short_of |= since_clock(q, INTERVAL_TWR, b->stored.clock, q->table[TWR]);
    }
    return short_of;
}

/* "AUTO REFRESH, LOAD MODE: tRP since each closing" */
static unsigned of_idle(const struct question *q)
{
    unsigned short_of = 0;
    for (unsigned i = 0; i < STATE_BANKS; i++)
        short_of |= since_closing(q, &q->s->bank[i]);
    return short_of;
}

static unsigned of_command(const struct question *q)
{
    switch (q->r->command) {
    case ACTIVE:
        return of_active(q);
    case READ:
    case WRITE: /* the bank is open, or it were 15 */
        return since_clock(q, INTERVAL_TRCD, q->s->bank[q->r->bank].opened, q->table[TRCD]);
    case PRECHARGE:
        return of_precharge(q);
    case AUTO_REFRESH:
    case LOAD_MODE:
        return of_idle(q);
    default:
        return 0;
    }
}

/* "the lowest such is named", 0 if all are met */
static uint64_t minimum_not_met(const struct question *q)
{
    unsigned short_of = of_any(q) | of_command(q);
    for (unsigned interval = INTERVAL_TRCD; interval <= INTERVAL_TMRD; interval++)
        if ((short_of >> interval & 1) != 0)
            return interval;
    return 0;
}

/* ---- 17 to 22 ---- */

static uint64_t mode_number(const struct question *q)
{
    uint64_t tck = q->table[latency(q->r->address) == 2 ? TCK_CL2 : TCK_CL3];
    if (reserved(q->r->address) || q->r->bank != 0)
        return 17;
    return q->s->period < tck ? 18 : 0;
}

/* "Unfinished means a clock before r + length or w + length." */
static bool unfinished(const struct burst *b, uint64_t length, uint64_t n)
{
    return b->live && b->auto_precharge && n < b->start + length;
}

static bool some_unfinished(const struct question *q)
{
    bool found = unfinished(&q->s->write, write_length(q->s->write.mode), q->clock);
    for (unsigned i = 0; i < STATE_READS; i++) {
        const struct burst *b = &q->s->read[i];
        found = found || unfinished(b, length_of(b->mode), q->clock);
    }
    return found;
}

/* Some lane is driven on clock n by the READs before this record. */
static bool driven(const struct question *q, uint64_t n)
{
    return read_on(q->s->read, n) != NULL && masks_on(q->s, n - 2) != ALL_HIGH;
}

static bool bus_not_clear(const struct question *q)
{
    return driven(q, q->clock) || (q->clock > 0 && driven(q, q->clock - 1));
}

/* "the later of ACTIVE + tRAS min and: for a READ at r, clock r + length; for a
 * WRITE with last beat at e, clock e + 1 plus the addition in ps, not rounded" */
static uint64_t auto_precharge_closing(const struct question *q)
{
    uint64_t earliest = q->s->bank[q->r->bank].opened * q->s->period + q->table[TRAS_MIN];
    bool write = q->r->command == WRITE;
    uint64_t length = write ? write_length(q->s->mode) : length_of(q->s->mode);
    uint64_t end = (q->clock + length) * q->s->period + (write ? q->table[ADDITION] : 0);
    return end > earliest ? end : earliest;
}

/* Number 21 "concerns a READ in full-page mode, and a WRITE there unless M9 = 1". */
static uint64_t auto_precharge_number(const struct question *q)
{
    bool write_ends = q->r->command == WRITE && single(q->s->mode);
    uint64_t active = q->s->bank[q->r->bank].opened * q->s->period;
    if (full_page(q->s->mode) && !write_ends)
        return 21;
    return auto_precharge_closing(q) > active + q->table[TRAS_MAX] ? 22 : 0;
}

static uint64_t number_after_minima(const struct question *q)
{
    if (q->r->command == LOAD_MODE)
        return mode_number(q);
    if ((is_access(q->r) || q->r->command == BURST_TERMINATE) && some_unfinished(q))
        return 19;
    if (q->r->command == WRITE && bus_not_clear(q))
        return 20;
    return asks_auto_precharge(q->r) ? auto_precharge_number(q) : 0;
}

/* ---- Asking: 10 to 23, "tried in the order listed" ---- */

/* The interval stands eight bits above the number. */
static uint64_t record_verdict(const struct question *q)
{
    if (q->r->zeros != 0)
        return 10;
    if (q->clock > CLOCK_MAX)
        return 23;
    if (!q->r->cke)
        return 11;
    if (refresh_late(q))
        return 12;
    if (row_open_too_long(q))
        return 13;
    if (q->r->command >= NOP)
        return 0;
    if (!allowed_at_start_up(q))
        return 14;
    if (!q->s->precharge_all.been)
        return 0; /* "The first PRECHARGE ALL .. has no other condition." */
    if (wrong_bank(q))
        return 15;
    uint64_t interval = minimum_not_met(q);
    if (interval != 0)
        return interval << 8 | 16;
    return number_after_minima(q);
}

/* "The first record stands on the clock equal to its skipped count; each later
 * one on the previous clock plus its skipped count plus 1." */
static struct question question_of(const struct state *s, const struct record *r,
                                   const uint64_t *table)
{
    struct question q = {s, r, table, 0, 0};
    q.clock = (s->last.been ? s->last.clock + 1 : 0) + r->skipped;
    q.now = q.clock * s->period;
    return q;
}

/* ---- Taking: what a record leaves ---- */

static struct burst no_burst(void)
{
    struct burst b = {false, false, 0, 0, 0, 0, {false, 0}, NO_BURST_MODE};
    return b;
}

/* "A burst keeps the mode of its registration." */
static struct burst registered(const struct question *q)
{
    const struct record *r = q->r;
    struct burst b = {true, a10(r), r->bank, q->s->bank[r->bank].row, column_of(r), q->clock,
                      {false, 0}, q->s->mode};
    return b;
}

/* A burst that a command on this clock ends: READ, WRITE, BURST TERMINATE, or
 * PRECHARGE of its bank. The earliest cut after the start counts, and a command
 * that is not after the start is none. */
static void cut(const struct question *q, struct burst *b)
{
    bool ends = is_access(q->r) || q->r->command == BURST_TERMINATE || precharges(q->r, b->bank);
    if (!ends || !b->live || b->start >= q->clock || lost(b, q->clock - b->start))
        return;
    b->cut.been = true;
    b->cut.clock = q->clock;
}

/* "a WRITE at x with r < x <= r + CL + i" loses all that a READ before it has to
 * come. */
static void write_over(const struct question *q, struct burst *read)
{
    for (unsigned i = 0; i < STATE_READS; i++)
        if (read[i].start < q->clock)
            read[i] = no_burst();
}

/* The READ whose place a new one takes: one that has no beat to come, the last of
 * them; where all have, the one registered first, of equals the last. */
static unsigned makes_room(const struct question *q)
{
    const struct burst *read = q->s->read;
    unsigned oldest = 0;
    for (unsigned i = STATE_READS; i-- > 0;)
        if (!to_come(&read[i], q->clock))
            return i;
    for (unsigned i = 1; i < STATE_READS; i++)
        if (read[i].start <= read[oldest].start)
            oldest = i;
    return oldest;
}

/* The new READ stands first, those before it keep their order. */
static void add_read(const struct question *q, struct burst *read)
{
    for (unsigned i = makes_room(q); i > 0; i--)
        read[i] = read[i - 1];
    read[0] = registered(q);
}

static void take_bursts(const struct question *q, struct state *next)
{
    cut(q, &next->write);
    for (unsigned i = 0; i < STATE_READS && q->r->command != WRITE; i++)
        cut(q, &next->read[i]);
    if (q->r->command == READ)
        add_read(q, next->read);
    if (q->r->command != WRITE)
        return;
    write_over(q, next->read);
    next->write = registered(q);
}

static void take_masks(const struct question *q, struct state *next)
{
    uint64_t skipped = q->r->skipped;
    next->masks[0] = q->r->masks;
    next->masks[1] = skipped == 0 ? q->s->masks[0] : ALL_HIGH;
    next->masks[2] = skipped == 0 ? q->s->masks[1] : skipped == 1 ? q->s->masks[0] : ALL_HIGH;
}

static void close_bank(struct bank *b, uint64_t closing)
{
    b->status = CLOSED;
    b->row = 0;
    b->opened = 0;
    b->closing = closing;
}

static void open_bank(const struct question *q, struct bank *b)
{
    struct bank opened = {OPEN, q->r->address, q->clock, 0, {true, q->clock}, {false, 0}};
    *b = opened;
}

/* A closed bank "keeps that closing time"; "the first PRECHARGE ALL closes all
 * banks", whatever it finds. */
static void take_banks(const struct question *q, struct state *next)
{
    bool first = !q->s->precharge_all.been;
    if (q->r->command == ACTIVE)
        open_bank(q, &next->bank[q->r->bank]);
    if (asks_auto_precharge(q->r))
        close_bank(&next->bank[q->r->bank], auto_precharge_closing(q));
    for (unsigned i = 0; i < STATE_BANKS; i++)
        if (precharges(q->r, i) && (first || next->bank[i].status != CLOSED))
            close_bank(&next->bank[i], q->now);
}

static void take_start_up(const struct question *q, struct state *next)
{
    if (is_precharge_all(q->r)) {
        next->precharge_all.been = true;
        next->precharge_all.clock = q->clock;
    }
    if (q->r->command == AUTO_REFRESH) {
        next->refreshes += next->refreshes < 2;
        next->refresh = q->clock;
    }
    if (q->r->command == LOAD_MODE) {
        next->loaded = true;
        next->mode = q->r->address;
        next->load = q->clock;
    }
}

/* The state after the record, and the beat on its clock. */
static struct beat take_record(const struct question *q, struct state *next)
{
    *next = *q->s;
    take_bursts(q, next);
    take_masks(q, next);
    take_banks(q, next);
    take_start_up(q, next);
    next->number++;
    next->last.been = true;
    next->last.clock = q->clock;
    struct beat b = reported_beat(q, next);
    if (b.kind == 2 && b.lanes != 0) { /* no byte is stored by a masked beat */
        next->bank[b.bank].stored.been = true;
        next->bank[b.bank].stored.clock = q->clock;
    }
    return b;
}

/* "Column c, lane i is page byte 8c+i", for the watched bank and row. */
static void store(const struct beat *b, const struct question *q, uint8_t *page)
{
    if (b->kind != 2 || b->bank != q->s->watched_bank || b->row != q->s->watched_row)
        return;
    for (unsigned lane = 0; lane < LANES; lane++)
        if ((b->lanes >> lane & 1) != 0)
            page[LANES * b->column + lane] = (uint8_t)(q->r->dq >> 8 * lane);
}

static void report(const struct beat *b, uint64_t clock, uint64_t *beat, size_t beat_len)
{
    if (beat_len > 0)
        beat[0] = b->kind << 48 | b->bank << 40 | b->row << 24 | b->column << 8 | b->lanes;
    if (beat_len > 1)
        beat[1] = clock;
}

/* ---- The calls ---- */

/* The record's number in the answer's 24 bits. */
static uint64_t answer_of(uint64_t verdict, const struct state *s)
{
    return verdict | (s->number & 0xFFFFFF) << 16;
}

uint64_t onerecord_start(uint64_t *state, size_t state_len, uint64_t period, uint64_t grade,
                         uint64_t bank, uint64_t row)
{
    struct state s;
    if (!period_fits(period))
        return 3;
    if (!grade_known(grade))
        return 4;
    if (state_len != STATE_WORDS || bank >= STATE_BANKS || row >= ROWS)
        return 25;
    memset(&s, 0, sizeof s);
    s.period = period;
    s.grade = grade;
    s.watched_bank = bank;
    s.watched_row = row;
    s.write = no_burst();
    for (unsigned i = 0; i < STATE_READS; i++)
        s.read[i] = no_burst();
    for (unsigned i = 0; i < 3; i++)
        s.masks[i] = ALL_HIGH;
    write_words(&s, state);
    return 0;
}

uint64_t onerecord_ask(const uint64_t *state, size_t state_len,
                       const uint8_t *record, size_t record_len,
                       const uint8_t *page, size_t page_len,
                       const uint64_t table[13])
{
    struct state s;
    (void)page;
    uint64_t refused = entry_number(state, state_len, record_len, page_len, table, &s);
    if (refused != 0)
        return refused;
    struct record r = read_record(record);
    struct question q = question_of(&s, &r, table);
    return answer_of(record_verdict(&q), &s);
}

uint64_t onerecord_take(uint64_t *state, size_t state_len,
                        const uint8_t *record, size_t record_len,
                        uint8_t *page, size_t page_len,
                        uint64_t *beat, size_t beat_len,
                        const uint64_t table[13])
{
    uint64_t answer = onerecord_ask(state, state_len, record, record_len, page, page_len, table);
    struct state s, next;
    if ((answer & 0xFF) != 0)
        return answer;
    read_words(state, &s);
    struct record r = read_record(record);
    struct question q = question_of(&s, &r, table);
    struct beat b = take_record(&q, &next);
    write_words(&next, state);
    store(&b, &q, page);
    report(&b, q.clock, beat, beat_len);
    return answer;
}
