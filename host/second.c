/* The second program: document 01 asked directly of the records.
 *
 * For each record it looks back over all earlier records and asks the
 * conditions of 01 in 01's words. Nothing is kept but the records read so
 * far, each with its clock: no bank table, no running burst, no due times.
 *
 * In every question below `k` is the record that asks. "Before k" are the
 * records 0 to k - 1, and all of them were taken, since the judge stops at
 * the first that is refused. */
#include "second.h"

#include <stdbool.h>

#define NONE SIZE_MAX
#define FULL_PAGE UINT64_MAX /* "goes on without end" */

enum {
    RECORD_BYTES = 16,
    RECORDS_MAX = 65535,
    BANKS = 4,
    LANES = 8,
    COLUMNS = 2048,
    PAGE_BYTES = 16384
};

/* The places of the speed table, read row by row. */
enum {
    TCK_CL2, TCK_CL3, TRAS_MIN, TRAS_MAX, TRC, TRCD, TRP, TRRD, TRFC, TWR,
    AUTO_PRECHARGE_ADDITION, REFRESH_INTERVAL, TMRD
};

enum command {
    COMMAND_INHIBIT, NOP, ACTIVE, READ, WRITE, BURST_TERMINATE, PRECHARGE,
    AUTO_REFRESH, LOAD_MODE
};

struct record {
    uint64_t clock;
    uint64_t dq;
    uint32_t zeros;   /* the twelve bits that must be 0 */
    uint16_t address; /* A12 to A0 */
    uint8_t command;
    uint8_t bank;
    uint8_t masks; /* DQMB7 to DQMB0, HIGH is 1 */
    bool cke;
};

struct header {
    uint32_t version;
    uint32_t period;
    uint32_t count;
    uint32_t grade;
    uint32_t watched_bank;
    uint32_t watched_row;
    bool zeros_clear;
};

/* What every question is asked of. */
struct past {
    const struct record *record;
    uint64_t period;
    const uint64_t *table;
};

struct beat {
    uint64_t kind; /* 0 none, 1 read, 2 write */
    uint64_t bank;
    uint64_t row;
    uint64_t column;
    uint64_t lanes;
};

static struct record records_read[RECORDS_MAX];

/* ---- Trace layout (most significant bit first) ---- */

static uint64_t bytes_as_number(const uint8_t *bytes, size_t count)
{
    uint64_t number = 0;
    for (size_t i = 0; i < count; i++)
        number = number << 8 | bytes[i];
    return number;
}

/* version 8, period 24, count 16, grade 8, bank 2, row 13, zeros 57 */
static struct header read_header(const uint8_t *bytes)
{
    struct header h;
    uint64_t bank_row_zero = bytes_as_number(bytes + 7, 2);
    h.version = (uint32_t)bytes_as_number(bytes, 1);
    h.period = (uint32_t)bytes_as_number(bytes + 1, 3);
    h.count = (uint32_t)bytes_as_number(bytes + 4, 2);
    h.grade = (uint32_t)bytes_as_number(bytes + 6, 1);
    h.watched_bank = (uint32_t)(bank_row_zero >> 14);
    h.watched_row = (uint32_t)(bank_row_zero >> 1 & 0x1FFF);
    h.zeros_clear = (bank_row_zero & 1) == 0 && bytes_as_number(bytes + 9, 7) == 0;
    return h;
}

/* 003 table 8, with RAS#, CAS#, WE# as a number of three bits. CS# HIGH is
 * COMMAND INHIBIT whatever the other three are. */
static enum command decode_command(uint64_t cs_ras_cas_we)
{
    static const enum command of_code[8] = {
        LOAD_MODE, AUTO_REFRESH, PRECHARGE, ACTIVE,
        WRITE, READ, BURST_TERMINATE, NOP
    };
    return cs_ras_cas_we >= 8 ? COMMAND_INHIBIT : of_code[cs_ras_cas_we];
}

/* skipped clocks 24, CKE 1, command 4, BA 2, A12 to A0 13, DQMB 8, zeros 12,
 * DQ 64. "The first record stands on the clock equal to its skipped count;
 * each later one on the previous clock plus its skipped count plus 1." */
static void read_record(const uint8_t *bytes, size_t k)
{
    struct record *r = &records_read[k];
    uint64_t skipped = bytes_as_number(bytes, 3);
    uint64_t pins = bytes_as_number(bytes + 3, 5);
    r->clock = k == 0 ? skipped : records_read[k - 1].clock + skipped + 1;
    r->cke = (pins >> 39 & 1) != 0;
    r->command = (uint8_t)decode_command(pins >> 35 & 0xF);
    r->bank = (uint8_t)(pins >> 33 & 3);
    r->address = (uint16_t)(pins >> 20 & 0x1FFF);
    r->masks = (uint8_t)(pins >> 12 & 0xFF);
    r->zeros = (uint32_t)(pins & 0xFFF);
    r->dq = bytes_as_number(bytes + 8, 8);
}

/* ---- What a record says ---- */

static bool a10(const struct record *r)
{
    return (r->address >> 10 & 1) != 0;
}

static bool is_precharge_all(const struct record *r)
{
    return r->command == PRECHARGE && a10(r);
}

/* "PRECHARGE, one bank or (A10 HIGH) each of the four" */
static bool is_precharge_of(const struct record *r, unsigned bank)
{
    return r->command == PRECHARGE && (a10(r) || r->bank == bank);
}

static bool is_read_or_write(const struct record *r)
{
    return r->command == READ || r->command == WRITE;
}

/* "A10 asks auto precharge." */
static bool asks_auto_precharge(const struct record *r)
{
    return is_read_or_write(r) && a10(r);
}

/* Executable commands are "all but those two". */
static bool is_executable(const struct record *r)
{
    return r->command != NOP && r->command != COMMAND_INHIBIT;
}

/* "Column is A11 then A9 to A0; A12 is ignored." */
static uint64_t column_of(const struct record *r)
{
    return (uint64_t)(r->address >> 11 & 1) << 10 | (r->address & 0x3FF);
}

/* ---- Times ---- */

/* "a count of n clocks lasts n times the period" */
static uint64_t time_of(const struct past *p, size_t k)
{
    return p->record[k].clock * p->period;
}

/* "An event still ahead [...] its minimum is not met before it, not even a
 * minimum of 0" */
static bool minimum_met(uint64_t now, uint64_t event, uint64_t minimum)
{
    return now >= event && now - event >= minimum;
}

/* "and no maximum is passed" where the event is still ahead */
static bool maximum_passed(uint64_t now, uint64_t event, uint64_t maximum)
{
    return now > event && now - event > maximum;
}

/* "A minimum is met if its event has never occurred." */
static bool met_since_record(const struct past *p, size_t k, size_t event, uint64_t minimum)
{
    return event == NONE || minimum_met(time_of(p, k), time_of(p, event), minimum);
}

/* ---- Looking back for one record ---- */

static size_t last_command(const struct past *p, size_t k, enum command command)
{
    for (size_t j = k; j-- > 0;)
        if (p->record[j].command == command)
            return j;
    return NONE;
}

static size_t last_precharge_all(const struct past *p, size_t k)
{
    for (size_t j = k; j-- > 0;)
        if (is_precharge_all(&p->record[j]))
            return j;
    return NONE;
}

static size_t last_active_of(const struct past *p, size_t k, unsigned bank)
{
    for (size_t j = k; j-- > 0;)
        if (p->record[j].command == ACTIVE && p->record[j].bank == bank)
            return j;
    return NONE;
}

static size_t last_active_of_another(const struct past *p, size_t k, unsigned bank)
{
    for (size_t j = k; j-- > 0;)
        if (p->record[j].command == ACTIVE && p->record[j].bank != bank)
            return j;
    return NONE;
}

/* ---- The mode word ---- */

/* "A burst keeps the mode of its registration": the last word loaded before
 * record k. Asked only where start-up has seen to it that there is one. */
static uint32_t mode_at(const struct past *p, size_t k)
{
    size_t load = last_command(p, k, LOAD_MODE);
    return load == NONE ? 0 : p->record[load].address;
}

static bool single_writes(uint32_t mode)
{
    return (mode >> 9 & 1) != 0; /* "M9 = 1 makes writes single." */
}

static uint64_t latency(uint32_t mode)
{
    return mode >> 4 & 7;
}

/* "M2 to M0: 0, 1, 2, 3 mean 1, 2, 4, 8; 7 means full page" */
static uint64_t mode_length(uint32_t mode)
{
    return (mode & 7) == 7 ? FULL_PAGE : (uint64_t)1 << (mode & 7);
}

/* The length of the burst that the READ or WRITE at record j registers. */
static uint64_t burst_length(const struct past *p, size_t j)
{
    uint32_t mode = mode_at(p, j);
    if (p->record[j].command == WRITE && single_writes(mode))
        return 1;
    return mode_length(mode);
}

/* "M2 to M0: 0, 1, 2, 3 [...]; 7 means full page, M3 = 0 only. CL 2 or 3. M7,
 * M8, M10 to M12 zero. [...] BA must be 0. All else is 17." */
static bool mode_reserved(const struct record *r)
{
    uint32_t mode = r->address;
    bool length_named = (mode & 7) <= 3 || ((mode & 7) == 7 && (mode >> 3 & 1) == 0);
    bool latency_named = latency(mode) == 2 || latency(mode) == 3;
    bool others_zero = (mode >> 7 & 3) == 0 && (mode >> 10 & 7) == 0;
    return !(length_named && latency_named && others_zero && r->bank == 0);
}

/* ---- Banks ---- */

/* An open bank closes at a PRECHARGE, and "Auto precharge counts the bank
 * closed at once." */
static bool closes(const struct record *r, unsigned bank)
{
    return is_precharge_of(r, bank) || (asks_auto_precharge(r) && r->bank == bank);
}

/* The record before k that closed the bank, NONE while it is open: the first
 * closing record after its last ACTIVE, since a closed bank "keeps that
 * closing time". A bank never ACTIVE was closed by the first PRECHARGE ALL. */
static size_t closing_record(const struct past *p, size_t k, unsigned bank)
{
    size_t active = last_active_of(p, k, bank);
    for (size_t j = active == NONE ? 0 : active + 1; j < k; j++)
        if (closes(&p->record[j], bank))
            return j;
    return NONE;
}

static bool is_open(const struct past *p, size_t k, unsigned bank)
{
    return last_active_of(p, k, bank) != NONE && closing_record(p, k, bank) == NONE;
}

static bool is_closed(const struct past *p, size_t k, unsigned bank)
{
    return closing_record(p, k, bank) != NONE;
}

/* "Its closing time is the later of ACTIVE + tRAS min and: for a READ at r,
 * clock r + length; for a WRITE with last beat at e, clock e + 1 plus the
 * addition in ps, not rounded." Record j asks auto precharge. */
static uint64_t auto_precharge_closing(const struct past *p, size_t j)
{
    const struct record *r = &p->record[j];
    uint64_t earliest = time_of(p, last_active_of(p, j, r->bank)) + p->table[TRAS_MIN];
    uint64_t end = (r->clock + burst_length(p, j)) * p->period;
    if (r->command == WRITE)
        end += p->table[AUTO_PRECHARGE_ADDITION];
    return end > earliest ? end : earliest;
}

/* The closing time of a bank that is closed before k. */
static uint64_t closing_time(const struct past *p, size_t k, unsigned bank)
{
    size_t j = closing_record(p, k, bank);
    if (asks_auto_precharge(&p->record[j]))
        return auto_precharge_closing(p, j);
    return time_of(p, j);
}

static bool all_closed(const struct past *p, size_t k)
{
    for (unsigned bank = 0; bank < BANKS; bank++)
        if (!is_closed(p, k, bank))
            return false;
    return true;
}

/* ---- Masks ---- */

/* The masks on clock n, before record `end`: "A skipped clock had COMMAND
 * INHIBIT and all masks HIGH." */
static uint64_t masks_on(const struct past *p, size_t end, uint64_t n)
{
    for (size_t j = end; j-- > 0 && p->record[j].clock >= n;)
        if (p->record[j].clock == n)
            return p->record[j].masks;
    return 0xFF;
}

/* ---- Beats: where they fall and which are lost ---- */

/* WRITE at w: beat i is "lost if READ, WRITE, BURST TERMINATE, or PRECHARGE of
 * its bank stands at x with w < x <= w + i". Only records before `end` count. */
static bool write_beat_lost(const struct past *p, size_t write, uint64_t i, size_t end)
{
    const struct record *w = &p->record[write];
    for (size_t j = write + 1; j < end && p->record[j].clock <= w->clock + i; j++) {
        const struct record *x = &p->record[j];
        if (is_read_or_write(x) || x->command == BURST_TERMINATE || is_precharge_of(x, w->bank))
            return true;
    }
    return false;
}

/* READ at r: beat i is "lost if READ, BURST TERMINATE, or PRECHARGE of its
 * bank stands at x with r < x <= r + i, or a WRITE at x with
 * r < x <= r + CL + i". */
static bool read_beat_lost(const struct past *p, size_t read, uint64_t cl, uint64_t i, size_t end)
{
    const struct record *r = &p->record[read];
    for (size_t j = read + 1; j < end && p->record[j].clock <= r->clock + cl + i; j++) {
        const struct record *x = &p->record[j];
        if (x->command == WRITE)
            return true;
        if (x->clock > r->clock + i)
            continue;
        if (x->command == READ || x->command == BURST_TERMINATE || is_precharge_of(x, r->bank))
            return true;
    }
    return false;
}

/* "WRITE at w: beat i on w + i": has the WRITE at record w a beat on clock n? */
static bool writes_on(const struct past *p, size_t write, uint64_t n, size_t end)
{
    uint64_t w = p->record[write].clock;
    if (n < w || n - w >= burst_length(p, write))
        return false;
    return !write_beat_lost(p, write, n - w, end);
}

/* "READ at r: beat i on r + CL + i": has the READ at record r a beat on n? */
static bool reads_on(const struct past *p, size_t read, uint64_t n, size_t end)
{
    uint64_t cl = latency(mode_at(p, read));
    uint64_t first = p->record[read].clock + cl;
    if (n < first || n - first >= burst_length(p, read))
        return false;
    return !read_beat_lost(p, read, cl, n - first, end);
}

/* The WRITE among the records before `end` with a beat on clock n, or NONE.
 * A READ, WRITE or BURST TERMINATE at or before n loses that beat of every
 * earlier WRITE, so none further back needs asking. */
static size_t write_on(const struct past *p, size_t end, uint64_t n)
{
    for (size_t j = end; j-- > 0;) {
        const struct record *x = &p->record[j];
        if (x->command == WRITE && writes_on(p, j, n, end))
            return j;
        if (x->clock <= n && (is_read_or_write(x) || x->command == BURST_TERMINATE))
            return NONE;
    }
    return NONE;
}

/* The READ among the records before `end` with a beat on clock n, or NONE.
 * Beat i falls on r + CL + i, and CL is at most 3: a READ, WRITE or BURST
 * TERMINATE at x <= n - 3 has x <= r + i and loses that beat of every earlier
 * READ, so none further back needs asking. */
static size_t read_on(const struct past *p, size_t end, uint64_t n)
{
    for (size_t j = end; j-- > 0;) {
        const struct record *x = &p->record[j];
        if (x->command == READ && reads_on(p, j, n, end))
            return j;
        if (x->clock + 3 <= n && (is_read_or_write(x) || x->command == BURST_TERMINATE))
            return NONE;
    }
    return NONE;
}

/* "A lane is driven if its DQMB was LOW two clocks earlier." */
static uint64_t lanes_driven(const struct past *p, size_t end, uint64_t n)
{
    if (read_on(p, end, n) == NONE)
        return 0;
    return ~masks_on(p, end, n - 2) & 0xFF;
}

/* The last record before k on whose clock a byte was stored in the bank after
 * its ACTIVE, NONE if there is none. A skipped clock stores nothing: its masks
 * are HIGH. */
static size_t last_store_in(const struct past *p, size_t k, unsigned bank)
{
    size_t active = last_active_of(p, k, bank);
    for (size_t j = k; j-- > 0 && j != active;) {
        if (p->record[j].masks == 0xFF)
            continue; /* "counting tWR from a masked beat" looks right and is not */
        size_t write = write_on(p, j + 1, p->record[j].clock);
        if (write != NONE && p->record[write].bank == bank)
            return j;
    }
    return NONE;
}

/* ---- Column order (003 table 6) ---- */

/* Type = Interleaved, length 8, by A2 to A0. The rows for length 4 and 2 are
 * the beginnings of the first four and the first two. */
static const uint8_t interleaved[8][8] = {
    {0, 1, 2, 3, 4, 5, 6, 7}, {1, 0, 3, 2, 5, 4, 7, 6},
    {2, 3, 0, 1, 6, 7, 4, 5}, {3, 2, 1, 0, 7, 6, 5, 4},
    {4, 5, 6, 7, 0, 1, 2, 3}, {5, 4, 7, 6, 1, 0, 3, 2},
    {6, 7, 4, 5, 2, 3, 0, 1}, {7, 6, 5, 4, 3, 2, 1, 0}
};

/* The column of beat i of the READ or WRITE at record j. "Full page wraps at
 * 2,048 columns"; a shorter burst wraps inside its block. */
static uint64_t beat_column(const struct past *p, size_t j, uint64_t i)
{
    uint64_t start = column_of(&p->record[j]);
    uint64_t length = burst_length(p, j);
    if (length == FULL_PAGE)
        return (start + i) % COLUMNS;
    uint64_t block = start - start % length;
    if ((mode_at(p, j) >> 3 & 1) != 0)
        return block + interleaved[start % length][i];
    return block + (start + i) % length;
}

/* "Each accepted record reports the beat on its own clock, with bank, row,
 * column and lanes, or none". Beat i belongs to the burst of record j. */
static struct beat beat_of(const struct past *p, size_t j, uint64_t i, uint64_t kind,
                           uint64_t lanes)
{
    struct beat b;
    unsigned bank = p->record[j].bank;
    b.kind = kind;
    b.bank = bank;
    b.row = p->record[last_active_of(p, j, bank)].address;
    b.column = beat_column(p, j, i);
    b.lanes = lanes;
    return b;
}

static struct beat reported_beat(const struct past *p, size_t k)
{
    struct beat none = {0, 0, 0, 0, 0};
    uint64_t n = p->record[k].clock;
    size_t write = write_on(p, k + 1, n);
    if (write != NONE) /* "Lanes with DQMB LOW on that clock are stored." */
        return beat_of(p, write, n - p->record[write].clock, 2, ~masks_on(p, k + 1, n) & 0xFF);
    size_t read = read_on(p, k + 1, n);
    if (read != NONE) {
        uint64_t first = p->record[read].clock + latency(mode_at(p, read));
        return beat_of(p, read, n - first, 1, lanes_driven(p, k + 1, n));
    }
    return none;
}

/* ---- 12 and 13: tried on every record ---- */

static bool two_refreshes_done(const struct past *p, size_t k)
{
    size_t last = last_command(p, k, AUTO_REFRESH);
    return last != NONE && last_command(p, last, AUTO_REFRESH) != NONE;
}

/* "two or more refreshes done and the last is longer ago than the refresh
 * interval" */
static bool refresh_late(const struct past *p, size_t k)
{
    if (!two_refreshes_done(p, k))
        return false;
    uint64_t last = time_of(p, last_command(p, k, AUTO_REFRESH));
    return maximum_passed(time_of(p, k), last, p->table[REFRESH_INTERVAL]);
}

/* "some bank's row open longer than tRAS max" */
static bool row_open_too_long(const struct past *p, size_t k)
{
    for (unsigned bank = 0; bank < BANKS; bank++) {
        if (!is_open(p, k, bank))
            continue;
        uint64_t active = time_of(p, last_active_of(p, k, bank));
        if (maximum_passed(time_of(p, k), active, p->table[TRAS_MAX]))
            return true;
    }
    return false;
}

/* ---- 14: start-up ---- */

static bool is_first_precharge_all(const struct past *p, size_t k)
{
    return is_precharge_all(&p->record[k]) && last_precharge_all(p, k) == NONE;
}

/* "Before the first PRECHARGE ALL only NOP and COMMAND INHIBIT are allowed,
 * and that command must stand at 100,000,000 ps or later. Then PRECHARGE and
 * AUTO REFRESH; after two refreshes also LOAD MODE; after the first LOAD MODE
 * everything." */
static bool allowed_at_start_up(const struct past *p, size_t k)
{
    if (is_first_precharge_all(p, k))
        return time_of(p, k) >= 100000000;
    switch (p->record[k].command) {
    case PRECHARGE:
    case AUTO_REFRESH:
        return last_precharge_all(p, k) != NONE;
    case LOAD_MODE:
        return two_refreshes_done(p, k);
    default:
        return last_command(p, k, LOAD_MODE) != NONE;
    }
}

/* ---- 15: "bank open where it must be closed, or the reverse" ---- */

static bool wrong_bank(const struct past *p, size_t k)
{
    const struct record *r = &p->record[k];
    switch (r->command) {
    case ACTIVE:
        return !is_closed(p, k, r->bank);
    case READ:
    case WRITE:
        return !is_open(p, k, r->bank);
    case AUTO_REFRESH:
    case LOAD_MODE:
        return !all_closed(p, k);
    default:
        return false; /* PRECHARGE finds either; BURST TERMINATE: "no bank condition" */
    }
}

/* ---- 16: the eight minima, each asked on its own ---- */

/* 1. READ, WRITE: "tRCD since its ACTIVE". */
static bool trcd_met(const struct past *p, size_t k)
{
    const struct record *r = &p->record[k];
    if (!is_read_or_write(r))
        return true;
    return met_since_record(p, k, last_active_of(p, k, r->bank), p->table[TRCD]);
}

/* 2. PRECHARGE: "an open bank needs tRAS min". */
static bool tras_met(const struct past *p, size_t k)
{
    for (unsigned bank = 0; bank < BANKS; bank++) {
        if (!is_precharge_of(&p->record[k], bank) || !is_open(p, k, bank))
            continue;
        if (!met_since_record(p, k, last_active_of(p, k, bank), p->table[TRAS_MIN]))
            return false;
    }
    return true;
}

/* 3. ACTIVE: "tRC since its last ACTIVE". */
static bool trc_met(const struct past *p, size_t k)
{
    const struct record *r = &p->record[k];
    if (r->command != ACTIVE)
        return true;
    return met_since_record(p, k, last_active_of(p, k, r->bank), p->table[TRC]);
}

/* Whether the command at record k asks tRP since this bank's closing: ACTIVE
 * of its own bank, PRECHARGE of a closed bank, AUTO REFRESH and LOAD MODE "tRP
 * since each closing". */
static bool asks_closing_of(const struct past *p, size_t k, unsigned bank)
{
    const struct record *r = &p->record[k];
    switch (r->command) {
    case ACTIVE:
        return r->bank == bank;
    case PRECHARGE:
        return is_precharge_of(r, bank) && is_closed(p, k, bank);
    case AUTO_REFRESH:
    case LOAD_MODE:
        return true;
    default:
        return false;
    }
}

/* 4. "Any executable command: [...] tRP since the last PRECHARGE ALL", and tRP
 * since each closing that the command asks for. */
static bool trp_met(const struct past *p, size_t k)
{
    if (!met_since_record(p, k, last_precharge_all(p, k), p->table[TRP]))
        return false;
    for (unsigned bank = 0; bank < BANKS; bank++) {
        if (!asks_closing_of(p, k, bank))
            continue;
        if (!minimum_met(time_of(p, k), closing_time(p, k, bank), p->table[TRP]))
            return false;
    }
    return true;
}

/* 5. ACTIVE: "tRRD since the last ACTIVE of another bank". */
static bool trrd_met(const struct past *p, size_t k)
{
    const struct record *r = &p->record[k];
    if (r->command != ACTIVE)
        return true;
    return met_since_record(p, k, last_active_of_another(p, k, r->bank), p->table[TRRD]);
}

/* 6. "Any executable command: tRFC since the last refresh". */
static bool trfc_met(const struct past *p, size_t k)
{
    return met_since_record(p, k, last_command(p, k, AUTO_REFRESH), p->table[TRFC]);
}

/* 7. PRECHARGE: an open bank needs "tWR since the last clock on which a byte
 * was stored in it after its ACTIVE". */
static bool twr_met(const struct past *p, size_t k)
{
    for (unsigned bank = 0; bank < BANKS; bank++) {
        if (!is_precharge_of(&p->record[k], bank) || !is_open(p, k, bank))
            continue;
        if (!met_since_record(p, k, last_store_in(p, k, bank), p->table[TWR]))
            return false;
    }
    return true;
}

/* 8. "Any executable command: [...] tMRD since the last mode load", in clocks. */
static bool tmrd_met(const struct past *p, size_t k)
{
    size_t load = last_command(p, k, LOAD_MODE);
    return met_since_record(p, k, load, p->table[TMRD] * p->period);
}

/* "a minimum not met; the lowest such is named", 0 if all are met. */
static uint64_t minimum_not_met(const struct past *p, size_t k)
{
    if (!trcd_met(p, k)) return 1;
    if (!tras_met(p, k)) return 2;
    if (!trc_met(p, k)) return 3;
    if (!trp_met(p, k)) return 4;
    if (!trrd_met(p, k)) return 5;
    if (!trfc_met(p, k)) return 6;
    if (!twr_met(p, k)) return 7;
    if (!tmrd_met(p, k)) return 8;
    return 0;
}

/* ---- 17 to 22 ---- */

/* 18: "period below tCK of the chosen latency" */
static bool period_too_short(const struct past *p, const struct record *r)
{
    uint64_t tck = latency(r->address) == 2 ? p->table[TCK_CL2] : p->table[TCK_CL3];
    return p->period < tck;
}

/* 19: "Unfinished means a clock before r + length or w + length." No auto
 * precharge burst is longer than 8, so none further back than that counts. */
static bool auto_precharge_unfinished(const struct past *p, size_t k)
{
    uint64_t now = p->record[k].clock;
    for (size_t j = k; j-- > 0 && now - p->record[j].clock < 8;) {
        if (asks_auto_precharge(&p->record[j]) && now - p->record[j].clock < burst_length(p, j))
            return true;
    }
    return false;
}

/* 20: "without this WRITE some lane would be driven on its clock, or is driven
 * one clock before": asked of the records before k alone. */
static bool bus_not_clear(const struct past *p, size_t k)
{
    uint64_t now = p->record[k].clock;
    return lanes_driven(p, k, now) != 0 || lanes_driven(p, k, now - 1) != 0;
}

/* 22: "auto precharge would start later than tRAS max after the ACTIVE" */
static bool auto_precharge_late(const struct past *p, size_t k)
{
    uint64_t active = time_of(p, last_active_of(p, k, p->record[k].bank));
    return maximum_passed(auto_precharge_closing(p, k), active, p->table[TRAS_MAX]);
}

/* 17 to 22 in their order, 0 if none of them is given. */
static uint64_t number_after_minima(const struct past *p, size_t k)
{
    const struct record *r = &p->record[k];
    if (r->command == LOAD_MODE) {
        if (mode_reserved(r))
            return 17;
        return period_too_short(p, r) ? 18 : 0;
    }
    if (!is_read_or_write(r) && r->command != BURST_TERMINATE)
        return 0;
    if (auto_precharge_unfinished(p, k))
        return 19;
    if (r->command == WRITE && bus_not_clear(p, k))
        return 20;
    if (!asks_auto_precharge(r))
        return 0;
    if (burst_length(p, k) == FULL_PAGE)
        return 21; /* a WRITE with M9 = 1 has length 1 */
    return auto_precharge_late(p, k) ? 22 : 0;
}

/* ---- The verdict on one record: 10 to 22, "tried in the order listed" ----
 * 23 needs no question: no whole version 1 trace gets there. The interval
 * stands eight bits above the number. */
static uint64_t record_verdict(const struct past *p, size_t k)
{
    const struct record *r = &p->record[k];
    if (r->zeros != 0)
        return 10;
    if (!r->cke)
        return 11;
    if (refresh_late(p, k))
        return 12;
    if (row_open_too_long(p, k))
        return 13;
    if (!is_executable(r))
        return 0;
    if (!allowed_at_start_up(p, k))
        return 14;
    if (is_first_precharge_all(p, k))
        return 0; /* "has no other condition" */
    if (wrong_bank(p, k))
        return 15;
    uint64_t interval = minimum_not_met(p, k);
    if (interval != 0)
        return interval << 8 | 16;
    return number_after_minima(p, k);
}

/* ---- 1 to 7: header, table and page ---- */

/* "each time 0 to 200,000,000, tMRD 0 to 15, tRAS min not above max" */
static bool table_in_bounds(const uint64_t *table)
{
    for (size_t i = 0; i < TMRD; i++)
        if (table[i] > 200000000)
            return false;
    return table[TMRD] <= 15 && table[TRAS_MIN] <= table[TRAS_MAX];
}

static uint64_t header_verdict(const uint8_t *trace, size_t trace_len, size_t page_len,
                               const uint64_t *table)
{
    if (trace_len < RECORD_BYTES)
        return 1;
    struct header h = read_header(trace);
    if (trace_len != RECORD_BYTES + (size_t)RECORD_BYTES * h.count)
        return 1;
    if (h.version != 1)
        return 2;
    if (h.period < 1000 || h.period > 65535)
        return 3;
    if (h.grade != 1 && h.grade != 2)
        return 4;
    if (!h.zeros_clear)
        return 5;
    if (!table_in_bounds(table))
        return 6;
    return page_len != PAGE_BYTES ? 7 : 0;
}

/* ---- The whole trace ---- */

/* "Column c, lane i is page byte 8c+i", for the watched bank and row. Lane i is
 * DQ(8i) to DQ(8i+7). */
static void store(const struct beat *b, uint64_t dq, const struct header *h, uint8_t *page)
{
    if (b->kind != 2 || b->bank != h->watched_bank || b->row != h->watched_row)
        return;
    for (unsigned lane = 0; lane < LANES; lane++)
        if ((b->lanes >> lane & 1) != 0)
            page[8 * b->column + lane] = (uint8_t)(dq >> 8 * lane);
}

static void report(const struct beat *b, uint64_t clock, size_t k, uint64_t *beats,
                   size_t beats_len)
{
    if (2 * k < beats_len)
        beats[2 * k] = b->kind << 48 | b->bank << 40 | b->row << 24 | b->column << 8 | b->lanes;
    if (2 * k + 1 < beats_len)
        beats[2 * k + 1] = clock;
}

uint64_t second_judge(const uint8_t *trace, size_t trace_len,
                      uint8_t *page, size_t page_len,
                      uint64_t *beats, size_t beats_len,
                      const uint64_t table[13])
{
    uint64_t refused = header_verdict(trace, trace_len, page_len, table);
    if (refused != 0)
        return refused;
    struct header h = read_header(trace);
    struct past p = {records_read, h.period, table};
    for (size_t k = 0; k < h.count; k++) {
        read_record(trace + RECORD_BYTES * (k + 1), k);
        uint64_t verdict = record_verdict(&p, k);
        if (verdict != 0)
            return verdict | (uint64_t)k << 16;
        struct beat b = reported_beat(&p, k);
        store(&b, records_read[k].dq, &h, page);
        report(&b, records_read[k].clock, k, beats, beats_len);
    }
    return (uint64_t)h.count << 16;
}
