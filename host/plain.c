/* A plain judge that carries its state from record to record, the measure for
 * speed: a bank table with due times, a ring of the latest bursts, and the
 * masks of the last three clocks. Clocks and ps are both uint64_t; the largest
 * time in a whole trace is below 2^57. */
#include "plain.h"

#include <string.h>

enum {
    TCK2, TCK3, TRAS, TRAS_MAX, TRC, TRCD, TRP, TRRD, TRFC, TWR, ADDITION,
    INTERVAL, TMRD
};

/* The bits CS#, RAS#, CAS#, WE# as 003 table 8 has them. With CS# HIGH all
 * eight codes are COMMAND INHIBIT. */
enum {
    LOAD_MODE = 0, AUTO_REFRESH = 1, PRECHARGE = 2, ACTIVE = 3, WRITE = 4,
    READ = 5, BURST_TERMINATE = 6, NOP = 7
};

/* Number 16 names the lowest minimum that is not met: bit n for interval n. */
enum {
    EARLY_TRCD = 1 << 1, EARLY_TRAS = 1 << 2, EARLY_TRC = 1 << 3,
    EARLY_TRP = 1 << 4, EARLY_TRRD = 1 << 5, EARLY_TRFC = 1 << 6,
    EARLY_TWR = 1 << 7, EARLY_TMRD = 1 << 8
};

#define A10 0x400u
#define NO_LIMIT UINT64_MAX
#define FULL_PAGE ((uint64_t)1 << 62) /* without end: no clock gets there */

struct pins {
    uint64_t clock;
    uint64_t now; /* the clock in ps */
    uint64_t skipped;
    uint32_t command; /* CS#, RAS#, CAS#, WE# */
    uint32_t bank;
    uint32_t address;
    uint32_t masks;
    uint32_t zeros;
    bool cke;
};

struct beat {
    const struct plain_burst *burst; /* NULL for none */
    uint32_t column;
    uint32_t lanes;
};

/* ---- Bytes ---- */

static inline uint64_t load64(const uint8_t *b)
{
    return (uint64_t)b[0] << 56 | (uint64_t)b[1] << 48 | (uint64_t)b[2] << 40 |
           (uint64_t)b[3] << 32 | (uint64_t)b[4] << 24 | (uint64_t)b[5] << 16 |
           (uint64_t)b[6] << 8 | (uint64_t)b[7];
}

/* skipped clocks 24, CKE 1, CS# RAS# CAS# WE# 4, BA 2, A 13, DQMB 8, zeros 12 */
static struct pins read_pins(const struct plain_device *d, const uint8_t *record)
{
    uint64_t word = load64(record);
    struct pins p;
    p.skipped = word >> 40;
    p.cke = (word >> 39 & 1) != 0;
    p.command = (uint32_t)(word >> 35) & 0xF;
    p.bank = (uint32_t)(word >> 33) & 3;
    p.address = (uint32_t)(word >> 20) & 0x1FFF;
    p.masks = (uint32_t)(word >> 12) & 0xFF;
    p.zeros = (uint32_t)word & 0xFFF;
    p.clock = d->next_clock + p.skipped;
    p.now = p.clock * d->period;
    return p;
}

/* Column is A11 then A9 to A0. */
static uint32_t column_of(uint32_t address)
{
    return (address >> 1 & 0x400) | (address & 0x3FF);
}

/* ---- The mode word ---- */

static bool mode_reserved(uint32_t word, uint32_t bank)
{
    uint32_t length = word & 7;
    uint32_t latency = word >> 4 & 7;
    bool interleaved = (word & 8) != 0;
    if (length > 3 && (length != 7 || interleaved))
        return true;
    return (latency != 2 && latency != 3) || (word & 0x1D80) != 0 || bank != 0;
}

static struct plain_mode decode_mode(uint32_t word)
{
    struct plain_mode m;
    bool full_page = (word & 7) == 7;
    bool single = (word & 0x200) != 0;
    m.loaded = true;
    m.interleaved = (word & 8) != 0;
    m.latency = word >> 4 & 7;
    m.length = full_page ? FULL_PAGE : (uint64_t)1 << (word & 7);
    m.wrap = full_page ? 2047 : ((uint32_t)1 << (word & 7)) - 1;
    m.write_length = single ? 1 : m.length;
    return m;
}

/* ---- Bursts ---- */

static struct plain_burst *newest_burst(struct plain_device *d)
{
    return &d->burst[d->newest];
}

/* READ, WRITE, BURST TERMINATE or a PRECHARGE at clock x ends the running
 * burst; those before it have ended already. */
static void cut_burst(struct plain_device *d, uint64_t x)
{
    struct plain_burst *b = newest_burst(d);
    if (b->stop > x)
        b->stop = x;
}

/* A WRITE loses every beat that a READ still has to come. */
static void drop_bursts(struct plain_device *d)
{
    for (uint32_t i = 0; i < PLAIN_BURSTS; i++)
        d->burst[i].stop = 0;
}

/* The burst with a beat on clock n, for n not more than one clock ago. No more
 * than four READs can have one there or later: those that worked on the clocks
 * n - 3 and n - 2 and the ones registered since. A burst that had begun by then
 * decides, for it ended all before it: bursts of two latencies lie further apart
 * than that, with a PRECHARGE, a LOAD MODE and an ACTIVE between them. */
static const struct plain_burst *burst_on(const struct plain_device *d, uint64_t n)
{
    for (uint32_t i = 0; i < PLAIN_BURSTS; i++) {
        const struct plain_burst *b = &d->burst[(d->newest - i) % PLAIN_BURSTS];
        uint64_t worked = n - b->latency;
        if (b->start <= worked)
            return worked < b->stop ? b : NULL;
    }
    return NULL;
}

/* 003 table 6: sequential counts up and wraps, interleaved is exclusive or. */
static uint32_t beat_column(const struct plain_burst *b, uint64_t n)
{
    uint32_t i = (uint32_t)(n - b->latency - b->start) & b->wrap;
    uint32_t inside = b->interleaved ? b->column ^ i : b->column + i;
    return (b->column & ~b->wrap) | (inside & b->wrap);
}

static bool lanes_driven_on(const struct plain_device *d, uint64_t n, uint32_t masks)
{
    if (masks == 0xFF)
        return false;
    const struct plain_burst *b = burst_on(d, n);
    return b != NULL && !b->write;
}

/* The masks of the last clocks once `skipped` clocks, all HIGH, have passed. */
static uint32_t masks_after(uint32_t masks, uint64_t skipped)
{
    if (skipped >= 3)
        return 0xFFFFFFFF;
    return (uint32_t)~(~(uint64_t)masks << 8 * skipped);
}

/* Number 20: a lane driven on this clock or on the one before. A lane is
 * driven if its mask was LOW two clocks earlier. */
static bool bus_busy(const struct plain_device *d, const struct pins *p)
{
    uint32_t masks = masks_after(d->masks, p->skipped);
    return lanes_driven_on(d, p->clock, masks >> 8 & 0xFF) ||
           lanes_driven_on(d, p->clock - 1, masks >> 16 & 0xFF);
}

/* ---- Banks ---- */

/* The least of the four limits on open rows, kept for rule 13. */
static void renew_row_limit(struct plain_device *d)
{
    uint64_t limit = NO_LIMIT;
    for (uint32_t i = 0; i < PLAIN_BANKS; i++) {
        const struct plain_bank *b = &d->bank[i];
        if (b->open && b->active + d->table[TRAS_MAX] < limit)
            limit = b->active + d->table[TRAS_MAX];
    }
    d->row_limit = limit;
}

static bool some_bank_open(const struct plain_device *d)
{
    return d->row_limit != NO_LIMIT;
}

/* The closing time of auto precharge, in ps and not rounded. */
static uint64_t auto_closing(const struct plain_device *d, const struct pins *p)
{
    bool write = p->command == WRITE;
    uint64_t length = write ? d->mode.write_length : d->mode.length;
    uint64_t end = (p->clock + length) * d->period + (write ? d->table[ADDITION] : 0);
    uint64_t tras_due = d->bank[p->bank].tras_due;
    return end > tras_due ? end : tras_due;
}

/* ---- Asking ---- */

static bool start_up_allows(const struct plain_device *d, const struct pins *p)
{
    switch (p->command) {
    case PRECHARGE:
        return d->precharged || ((p->address & A10) != 0 && p->now >= 100000000);
    case AUTO_REFRESH:
        return d->precharged;
    case LOAD_MODE:
        return d->refreshes >= 2;
    default:
        return d->mode.loaded;
    }
}

static bool wrong_bank(const struct plain_device *d, const struct pins *p)
{
    switch (p->command) {
    case ACTIVE:
        return d->bank[p->bank].open;
    case READ:
    case WRITE:
        return !d->bank[p->bank].open;
    case AUTO_REFRESH:
    case LOAD_MODE:
        return some_bank_open(d);
    default:
        return false;
    }
}

static uint32_t early(uint64_t now, uint64_t due, uint32_t bit)
{
    return now < due ? bit : 0;
}

static uint32_t early_precharge(const struct plain_bank *b, uint64_t now)
{
    if (!b->open)
        return early(now, b->trp_due, EARLY_TRP);
    return early(now, b->tras_due, EARLY_TRAS) | early(now, b->twr_due, EARLY_TWR);
}

static uint32_t early_precharges(const struct plain_device *d, const struct pins *p)
{
    uint32_t bits = 0;
    if ((p->address & A10) == 0)
        return early_precharge(&d->bank[p->bank], p->now);
    for (uint32_t i = 0; i < PLAIN_BANKS; i++)
        bits |= early_precharge(&d->bank[i], p->now);
    return bits;
}

static uint32_t early_closings(const struct plain_device *d, uint64_t now)
{
    uint32_t bits = 0;
    for (uint32_t i = 0; i < PLAIN_BANKS; i++)
        bits |= early(now, d->bank[i].trp_due, EARLY_TRP);
    return bits;
}

/* All minima that this command does not meet. */
static uint32_t early_bits(const struct plain_device *d, const struct pins *p)
{
    const struct plain_bank *b = &d->bank[p->bank];
    uint64_t now = p->now;
    uint32_t any = early(now, d->trfc_due, EARLY_TRFC) | early(now, d->tmrd_due, EARLY_TMRD) |
                   early(now, d->precharge_all_due, EARLY_TRP);
    switch (p->command) {
    case ACTIVE:
        return any | early(now, b->trp_due, EARLY_TRP) | early(now, b->trc_due, EARLY_TRC) |
               early(now, b->trrd_due, EARLY_TRRD);
    case READ:
    case WRITE:
        return any | early(now, b->trcd_due, EARLY_TRCD);
    case PRECHARGE:
        return any | early_precharges(d, p);
    case AUTO_REFRESH:
    case LOAD_MODE:
        return any | early_closings(d, now);
    default:
        return any;
    }
}

static uint32_t lowest_interval(uint32_t bits)
{
    uint32_t interval = 1;
    while ((bits >> interval & 1) == 0)
        interval++;
    return interval;
}

static uint32_t ask_load_mode(const struct plain_device *d, const struct pins *p)
{
    if (mode_reserved(p->address, p->bank))
        return 17;
    uint64_t tck = (p->address >> 4 & 7) == 2 ? d->table[TCK2] : d->table[TCK3];
    return d->period < tck ? 18 : 0;
}

static uint32_t ask_auto_precharge(const struct plain_device *d, const struct pins *p)
{
    uint64_t length = p->command == WRITE ? d->mode.write_length : d->mode.length;
    if (length == FULL_PAGE)
        return 21;
    uint64_t limit = d->bank[p->bank].active + d->table[TRAS_MAX];
    return auto_closing(d, p) > limit ? 22 : 0;
}

static uint32_t ask_column(const struct plain_device *d, const struct pins *p)
{
    if (p->clock < d->auto_end)
        return 19;
    if (p->command == BURST_TERMINATE)
        return 0;
    if (p->command == WRITE && bus_busy(d, p))
        return 20;
    return (p->address & A10) != 0 ? ask_auto_precharge(d, p) : 0;
}

/* 14 to 22, for executable commands. */
static uint32_t ask_command(const struct plain_device *d, const struct pins *p)
{
    if (!start_up_allows(d, p))
        return 14;
    if (!d->precharged)
        return 0; /* the first PRECHARGE ALL has no other condition */
    if (wrong_bank(d, p))
        return 15;
    uint32_t bits = early_bits(d, p);
    if (bits != 0)
        return lowest_interval(bits) << 8 | 16;
    switch (p->command) {
    case LOAD_MODE:
        return ask_load_mode(d, p);
    case READ:
    case WRITE:
    case BURST_TERMINATE:
        return ask_column(d, p);
    default:
        return 0;
    }
}

/* 10 to 13 on every record, then the rest. */
static uint32_t ask(const struct plain_device *d, const struct pins *p)
{
    if (p->zeros != 0)
        return 10;
    if (!p->cke)
        return 11;
    if (p->now > d->refresh_limit)
        return 12;
    if (p->now > d->row_limit)
        return 13;
    return p->command < NOP ? ask_command(d, p) : 0;
}

/* ---- Taking ---- */

static void take_active(struct plain_device *d, const struct pins *p)
{
    struct plain_bank *b = &d->bank[p->bank];
    b->open = true;
    b->row = p->address;
    b->active = p->now;
    b->trcd_due = p->now + d->table[TRCD];
    b->tras_due = p->now + d->table[TRAS];
    b->trc_due = p->now + d->table[TRC];
    b->twr_due = 0; /* tWR counts stores after the ACTIVE */
    for (uint32_t i = 0; i < PLAIN_BANKS; i++)
        if (i != p->bank)
            d->bank[i].trrd_due = p->now + d->table[TRRD];
    renew_row_limit(d);
}

static void close_bank(struct plain_device *d, uint32_t bank, uint64_t closing)
{
    d->bank[bank].open = false;
    d->bank[bank].trp_due = closing + d->table[TRP];
}

/* A closed bank keeps its closing time. */
static void take_precharge(struct plain_device *d, const struct pins *p)
{
    bool all = (p->address & A10) != 0;
    for (uint32_t i = 0; i < PLAIN_BANKS; i++)
        if ((all || i == p->bank) && (d->bank[i].open || !d->precharged))
            close_bank(d, i, p->now);
    renew_row_limit(d);
    if (all || newest_burst(d)->bank == p->bank)
        cut_burst(d, p->clock);
    if (all) {
        d->precharged = true;
        d->precharge_all_due = p->now + d->table[TRP];
    }
}

static void take_refresh(struct plain_device *d, const struct pins *p)
{
    d->trfc_due = p->now + d->table[TRFC];
    if (d->refreshes < 2)
        d->refreshes++;
    if (d->refreshes == 2)
        d->refresh_limit = p->now + d->table[INTERVAL];
}

static void take_load_mode(struct plain_device *d, const struct pins *p)
{
    d->mode = decode_mode(p->address);
    d->tmrd_due = p->now + d->table[TMRD] * d->period;
}

/* A burst keeps bank, row, order and latency of its registration. */
static void start_burst(struct plain_device *d, const struct pins *p)
{
    bool write = p->command == WRITE;
    d->newest = (d->newest + 1) % PLAIN_BURSTS;
    struct plain_burst *b = newest_burst(d);
    b->start = p->clock;
    b->stop = p->clock + (write ? d->mode.write_length : d->mode.length);
    b->latency = write ? 0 : d->mode.latency;
    b->bank = p->bank;
    b->row = d->bank[p->bank].row;
    b->column = column_of(p->address);
    b->wrap = d->mode.wrap;
    b->interleaved = d->mode.interleaved;
    b->write = write;
}

static void take_column(struct plain_device *d, const struct pins *p)
{
    if (p->command == WRITE)
        drop_bursts(d);
    else
        cut_burst(d, p->clock);
    start_burst(d, p);
    if ((p->address & A10) != 0) {
        close_bank(d, p->bank, auto_closing(d, p));
        renew_row_limit(d);
        d->auto_end = newest_burst(d)->stop;
    }
}

static void take_command(struct plain_device *d, const struct pins *p)
{
    switch (p->command) {
    case ACTIVE:
        take_active(d, p);
        break;
    case READ:
    case WRITE:
        take_column(d, p);
        break;
    case BURST_TERMINATE:
        cut_burst(d, p->clock);
        break;
    case PRECHARGE:
        take_precharge(d, p);
        break;
    case AUTO_REFRESH:
        take_refresh(d, p);
        break;
    case LOAD_MODE:
        take_load_mode(d, p);
        break;
    default:
        break;
    }
}

/* The beat on the record's own clock: a WRITE stores the lanes whose mask is
 * LOW now, a READ drives those whose mask was LOW two clocks earlier. */
static struct beat beat_now(const struct plain_device *d, uint64_t clock)
{
    struct beat beat = {burst_on(d, clock), 0, 0};
    if (beat.burst == NULL)
        return beat;
    beat.column = beat_column(beat.burst, clock);
    beat.lanes = (beat.burst->write ? ~d->masks : ~(d->masks >> 16)) & 0xFF;
    return beat;
}

static struct beat take(struct plain_device *d, const struct pins *p)
{
    d->masks = masks_after(d->masks, p->skipped) << 8 | p->masks;
    d->next_clock = p->clock + 1;
    take_command(d, p);
    struct beat beat = beat_now(d, p->clock);
    if (beat.burst != NULL && beat.burst->write && beat.lanes != 0)
        d->bank[beat.burst->bank].twr_due = p->now + d->table[TWR];
    return beat;
}

/* ---- One record at a time ---- */

void plain_begin(struct plain_device *d, uint64_t period, const uint64_t table[13])
{
    memset(d, 0, sizeof *d);
    memcpy(d->table, table, sizeof d->table);
    d->period = period;
    d->masks = 0xFFFFFFFF;
    d->refresh_limit = NO_LIMIT;
    d->row_limit = NO_LIMIT;
}

uint32_t plain_ask(const struct plain_device *d, const uint8_t *record)
{
    struct pins p = read_pins(d, record);
    return ask(d, &p);
}

void plain_take(struct plain_device *d, const uint8_t *record)
{
    struct pins p = read_pins(d, record);
    take(d, &p);
}

/* ---- The whole trace ---- */

static bool table_admitted(const uint64_t *table)
{
    for (uint32_t i = TCK2; i < TMRD; i++)
        if (table[i] > 200000000)
            return false;
    return table[TMRD] <= 15 && table[TRAS] <= table[TRAS_MAX];
}

static uint64_t ask_header(const uint8_t *trace, size_t trace_len, size_t page_len,
                           const uint64_t *table)
{
    if (trace_len < 16)
        return 1;
    uint64_t first = load64(trace);
    uint64_t second = load64(trace + 8);
    uint64_t period = first >> 32 & 0xFFFFFF;
    uint64_t grade = first >> 8 & 0xFF;
    if (trace_len != 16 + 16 * (size_t)(first >> 16 & 0xFFFF))
        return 1;
    if (first >> 56 != 1)
        return 2;
    if (period < 1000 || period > 65535)
        return 3;
    if (grade != 1 && grade != 2)
        return 4;
    if ((second & 0x01FFFFFFFFFFFFFF) != 0)
        return 5;
    if (!table_admitted(table))
        return 6;
    return page_len != 16384 ? 7 : 0;
}

/* Lane i is the record's byte 15 - i and page byte 8c + i. */
static void store_beat(const struct beat *beat, const uint8_t *record, uint8_t *page)
{
    for (uint32_t lane = 0; lane < 8; lane++)
        if ((beat->lanes >> lane & 1) != 0)
            page[8 * beat->column + lane] = record[15 - lane];
}

static uint64_t beat_word(const struct beat *beat)
{
    const struct plain_burst *b = beat->burst;
    if (b == NULL)
        return 0;
    return (uint64_t)(b->write ? 2 : 1) << 48 | (uint64_t)b->bank << 40 |
           (uint64_t)b->row << 24 | (uint64_t)beat->column << 8 | beat->lanes;
}

static void report_beat(const struct beat *beat, uint64_t clock, size_t k, uint64_t *beats,
                        size_t beats_len)
{
    if (2 * k < beats_len)
        beats[2 * k] = beat_word(beat);
    if (2 * k + 1 < beats_len)
        beats[2 * k + 1] = clock;
}

uint64_t plain_judge(const uint8_t *trace, size_t trace_len,
                     uint8_t *page, size_t page_len,
                     uint64_t *beats, size_t beats_len,
                     const uint64_t table[13])
{
    uint64_t refused = ask_header(trace, trace_len, page_len, table);
    if (refused != 0)
        return refused;
    uint64_t first = load64(trace);
    uint32_t watched = (uint32_t)((first & 0xFF) << 7 | trace[8] >> 1); /* bank and row */
    size_t count = (size_t)(first >> 16 & 0xFFFF);
    struct plain_device d;
    plain_begin(&d, first >> 32 & 0xFFFFFF, table);
    for (size_t k = 0; k < count; k++) {
        const uint8_t *record = trace + 16 + 16 * k;
        struct pins p = read_pins(&d, record);
        uint32_t verdict = ask(&d, &p);
        if (verdict != 0)
            return verdict | (uint64_t)k << 16;
        struct beat beat = take(&d, &p);
        const struct plain_burst *b = beat.burst;
        if (b != NULL && b->write && (b->bank << 13 | b->row) == watched)
            store_beat(&beat, record, page);
        report_beat(&beat, p.clock, k, beats, beats_len);
    }
    return (uint64_t)count << 16;
}
