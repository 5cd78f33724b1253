/* Single calls with states near admitted ones: parts of the state made anew round
 * a clock, a record aimed at what the state holds, and for some calls damage. */
#include "odd.h"

#include "../include/hawsehole.h"
#include "draft.h"

#include <string.h>

enum { TRAS_MIN = 2, TRAS_MAX = 3, REFRESH_INTERVAL = 11, TMRD = 12, TABLE = 13 };

#define CLOCK_MAX ((uint64_t)1 << 40)
#define TABLE_TIME_MAX 200000000u

static const uint64_t grade_table[2][TABLE] = {{HAWSEHOLE_GRADE_13E}, {HAWSEHOLE_GRADE_133}};

/* ---- Clocks and events round a clock ---- */

static uint64_t held_clock(uint64_t clock)
{
    return clock > CLOCK_MAX ? CLOCK_MAX : clock;
}

/* A few clocks before or after the base, rarely anywhere. */
static uint64_t clock_near(struct random *r, uint64_t base)
{
    uint64_t back = random_below(r, 12);
    if (random_chance(r, 15))
        return random_chance(r, 500) ? CLOCK_MAX : random_below(r, 20000);
    if (random_chance(r, 80))
        return held_clock(base + random_below(r, 8));
    return held_clock(base > back ? base - back : 0);
}

static struct event event_near(struct random *r, uint64_t base, uint64_t in_thousand)
{
    struct event e = {false, 0};
    e.been = random_chance(r, in_thousand);
    if (e.been)
        e.clock = clock_near(r, base);
    return e;
}

/* ---- Parts of a state ---- */

static uint64_t random_period(struct random *r)
{
    static const uint64_t usual[6] = {7500, 7500, 7000, 10000, 1000, 65535};
    return random_chance(r, 850) ? usual[random_below(r, 6)] : random_between(r, 1000, 65535);
}

static uint64_t random_mode(struct random *r)
{
    static const uint64_t length[8] = {0, 1, 2, 2, 3, 3, 7, 7};
    uint64_t word = length[random_below(r, 8)];
    if (word != 7)
        word |= random_below(r, 2) << 3;
    word |= random_between(r, 2, 3) << 4;
    return random_chance(r, 250) ? word | 0x200 : word;
}

static uint64_t random_masks(struct random *r)
{
    switch (random_below(r, 4)) {
    case 0:
        return 0x00;
    case 1:
        return 0xFF;
    case 2:
        return (uint64_t)1 << random_below(r, 8);
    default:
        return random_below(r, 256);
    }
}

static uint64_t random_column(struct random *r)
{
    return random_chance(r, 300) ? random_between(r, 2040, 2047) : random_below(r, 2048);
}

static uint64_t random_row(struct random *r, const struct state *s)
{
    if (random_chance(r, 600))
        return s->watched_row;
    return random_chance(r, 200) ? 8191 : random_below(r, 8192);
}

/* Live or not, before the base or ahead of it, cut or not, on its start or before too. */
static void make_burst(struct random *r, const struct state *s, uint64_t base, struct burst *b)
{
    b->live = random_chance(r, 750);
    b->auto_precharge = random_chance(r, 200);
    b->bank = random_chance(r, 500) ? s->watched_bank : random_below(r, 4);
    b->row = random_row(r, s);
    b->column = random_column(r);
    b->start = clock_near(r, base);
    b->cut.been = random_chance(r, 350);
    b->cut.clock = 0;
    if (b->cut.been)
        b->cut = event_near(r, random_chance(r, 500) ? b->start + 3 : base, 1000);
    b->mode = s->loaded && random_chance(r, 500) ? s->mode : random_mode(r);
}

/* Four READs with beats to come, at times on few clocks: the fifth must find room. */
static void make_reads_full(struct random *r, const struct state *s, uint64_t base,
                            struct burst *read)
{
    uint64_t clocks = random_between(r, 1, 5);
    for (unsigned i = 0; i < STATE_READS; i++) {
        uint64_t back = random_below(r, clocks);
        make_burst(r, s, base, &read[i]);
        read[i].live = true;
        read[i].auto_precharge = random_chance(r, 60);
        read[i].start = base > back ? base - back : 0;
        if (random_chance(r, 800))
            read[i].cut.been = false;
        read[i].cut.clock = read[i].cut.been ? held_clock(read[i].start + 1) : 0;
    }
}

/* A closing time on a clock, just after one, or between two. */
static uint64_t closing_near(struct random *r, uint64_t period, uint64_t base)
{
    uint64_t closing = clock_near(r, base) * period;
    switch (random_below(r, 4)) {
    case 0:
        return closing + random_below(r, period);
    case 1:
        return closing + 1;
    default:
        return closing;
    }
}

static void make_bank(struct random *r, const struct state *s, uint64_t base, struct bank *b)
{
    uint64_t kind = random_below(r, 20);
    memset(b, 0, sizeof *b);
    b->status = kind == 0 ? NOT_STARTED : kind < 10 ? OPEN : CLOSED;
    if (b->status == OPEN) {
        b->row = random_row(r, s);
        b->opened = clock_near(r, base);
    }
    if (b->status == CLOSED)
        b->closing = closing_near(r, s->period, base);
    b->active = event_near(r, base, 800);
    if (b->status == OPEN && random_chance(r, 500)) {
        b->active.been = true;
        b->active.clock = b->opened;
    }
    b->stored = event_near(r, base, 300);
    if (b->status == OPEN && random_chance(r, 500)) {
        b->stored.been = true;
        b->stored.clock = held_clock(b->opened + random_below(r, 4));
    }
}

static void make_refreshes(struct random *r, struct state *s, uint64_t base)
{
    s->refreshes = random_chance(r, 950) ? 2 : random_below(r, 2);
    s->refresh = s->refreshes == 0 ? 0 : clock_near(r, base);
}

static void make_register(struct random *r, struct state *s, uint64_t base)
{
    s->loaded = random_chance(r, 970);
    s->mode = s->loaded ? random_mode(r) : 0;
    s->load = s->loaded ? clock_near(r, base) : 0;
}

/* Small, about 2^24, or at the bound. */
static uint64_t random_number(struct random *r)
{
    static const uint64_t edge[5] = {0, 0xFFFFFF, 0x1000000, (uint64_t)1 << 40, (uint64_t)1 << 41};
    return random_chance(r, 700) ? random_below(r, 100000) : edge[random_below(r, 5)];
}

/* One part of the state, made anew round the base; the last is all four READs. */
static void make_part(struct random *r, struct state *s, uint64_t base, uint64_t part)
{
    switch (part) {
    case 0:
        s->number = random_number(r);
        break;
    case 1:
        s->watched_bank = random_below(r, 4);
        s->watched_row = random_below(r, 8192);
        break;
    case 2:
        s->precharge_all = event_near(r, base, 970);
        break;
    case 3:
        make_refreshes(r, s, base);
        break;
    case 4:
        make_register(r, s, base);
        break;
    case 5:
        make_burst(r, s, base, &s->write);
        break;
    case 6:
        for (unsigned i = 0; i < 3; i++)
            s->masks[i] = random_masks(r);
        break;
    case 7:
    case 8:
    case 9:
    case 10:
        make_bank(r, s, base, &s->bank[part - 7]);
        break;
    case 11:
    case 12:
    case 13:
    case 14:
        make_burst(r, s, base, &s->read[part - 11]);
        break;
    default:
        make_reads_full(r, s, base, s->read);
    }
}

enum { PARTS = 16 };

/* A clock for all the rest to lie near: usual, among the first, or the last ones. */
static uint64_t random_base(struct random *r)
{
    if (random_chance(r, 80))
        return random_below(r, 6);
    if (random_chance(r, 80))
        return CLOCK_MAX - random_below(r, 40);
    return random_between(r, 20000, 40000);
}

/* Every part at random. */
static void make_state(struct random *r, struct state *s)
{
    uint64_t base = random_base(r);
    memset(s, 0, sizeof *s);
    s->period = random_period(r);
    s->grade = random_between(r, 1, 2);
    s->last.been = random_chance(r, base < 6 ? 700 : 980);
    s->last.clock = s->last.been ? base : 0;
    for (uint64_t part = 0; part < PARTS - 1; part++)
        make_part(r, s, base, part);
    if (random_chance(r, 250))
        make_reads_full(r, s, base, s->read);
}

/* Some parts of a state that a trace reached. */
static void alter_state(struct random *r, struct state *s)
{
    uint64_t base = s->last.been ? s->last.clock : random_base(r);
    for (uint64_t n = random_below(r, 4); n > 0; n--)
        make_part(r, s, base, random_below(r, PARTS));
    if (random_chance(r, 30)) {
        s->last.been = !s->last.been;
        s->last.clock = s->last.been ? base : 0;
    }
}

/* ---- Tables ---- */

/* Short minima or none, so that much is legal near the base; maxima mostly wide. One
 * in ten is a grade's. */
static void own_table(struct random *r, uint64_t period, uint64_t *table)
{
    if (random_chance(r, 100)) {
        memcpy(table, grade_table[random_below(r, 2)], sizeof grade_table[0]);
        return;
    }
    uint64_t clocks = random_below(r, 5);
    for (unsigned i = 0; i < TMRD; i++)
        table[i] = random_chance(r, 400) ? 0 : random_below(r, clocks * period + 1);
    table[0] = random_below(r, period + 2);
    table[1] = random_below(r, period + 2);
    table[TMRD] = random_below(r, clocks + 1);
    table[REFRESH_INTERVAL] = random_chance(r, 850) ? TABLE_TIME_MAX : random_below(r, 20 * period);
    table[TRAS_MAX] = random_chance(r, 700) ? TABLE_TIME_MAX : random_below(r, 30) * period;
    if (random_chance(r, 300))
        table[TRAS_MAX] -= table[TRAS_MAX] == 0 ? 0 : 1;
    if (table[TRAS_MIN] > table[TRAS_MAX])
        table[TRAS_MAX] = table[TRAS_MIN];
}

/* ---- The record ---- */

/* A clock that some rule may count from. */
static uint64_t some_event(struct random *r, const struct state *s)
{
    const struct bank *b = &s->bank[random_below(r, 4)];
    const struct burst *read = &s->read[random_below(r, 4)];
    switch (random_below(r, 9)) {
    case 0:
        return s->precharge_all.clock;
    case 1:
        return s->refresh;
    case 2:
        return s->load;
    case 3:
        return b->active.clock;
    case 4:
        return b->stored.clock;
    case 5:
        return b->status == OPEN ? b->opened : b->closing / s->period;
    case 6:
        return s->write.start + random_below(r, 9);
    case 7:
        return read->start + random_below(r, 12);
    default:
        return read->cut.clock;
    }
}

/* The clock on which a number of the table is over after that, or one beside it; at
 * times as much earlier as a burst is long. */
static uint64_t aimed_clock(struct random *r, const struct state *s, const uint64_t *table)
{
    uint64_t event = some_event(r, s);
    uint64_t time = table[random_below(r, TMRD)];
    uint64_t clocks = random_chance(r, 300) ? 0 : time / s->period;
    uint64_t clock = event + clocks + random_below(r, 3);
    uint64_t back = random_chance(r, 750) ? 1 : (uint64_t)1 << random_below(r, 4);
    return clock > back ? clock - back : 0;
}

static uint64_t random_skip(struct random *r, const struct state *s, const uint64_t *table)
{
    uint64_t first = s->last.been ? s->last.clock + 1 : 0;
    uint64_t kind = random_below(r, 1000);
    uint64_t clock = aimed_clock(r, s, table);
    if (kind < 450 && clock >= first && clock - first <= SKIP_MAX)
        return clock - first;
    if (kind < 960)
        return random_below(r, 4);
    if (kind < 980)
        return random_below(r, 40);
    return kind < 990 ? SKIP_MAX : random_below(r, SKIP_MAX);
}

static uint64_t random_code(struct random *r)
{
    static const uint8_t usual[16] = {
        CODE_LOAD_MODE, CODE_AUTO_REFRESH, CODE_PRECHARGE, CODE_PRECHARGE, CODE_PRECHARGE,
        CODE_ACTIVE, CODE_ACTIVE, CODE_WRITE, CODE_WRITE, CODE_WRITE, CODE_READ, CODE_READ,
        CODE_READ, CODE_READ, CODE_BURST_TERMINATE, CODE_NOP};
    return random_chance(r, 970) ? usual[random_below(r, 16)] : random_below(r, 16);
}

/* A bank in the status that the command asks for, if there is one; LOAD MODE's BA
 * must be 0. */
static uint64_t fitting_bank(struct random *r, const struct state *s, uint64_t code)
{
    uint64_t bank = random_below(r, 4);
    enum status wanted = code == CODE_ACTIVE ? CLOSED : OPEN;
    if (code == CODE_LOAD_MODE && random_chance(r, 900))
        return 0;
    for (unsigned tries = 0; tries < 4 && s->bank[bank].status != wanted; tries++)
        bank = (bank + 1) % 4;
    return bank;
}

static uint64_t random_address(struct random *r, const struct state *s, uint64_t code)
{
    uint64_t column = random_column(r);
    uint64_t a10 = random_chance(r, 250) ? DRAFT_A10 : 0;
    switch (code) {
    case CODE_ACTIVE:
        return random_row(r, s);
    case CODE_READ:
    case CODE_WRITE:
        return (column >> 10) << 11 | a10 | (column & 0x3FF) | random_below(r, 2) << 12;
    case CODE_LOAD_MODE:
        column = random_mode(r);
        return random_chance(r, 700) ? column : column ^ (uint64_t)1 << random_below(r, 13);
    default:
        return random_below(r, 8192);
    }
}

static void put_record(const struct draft *d, uint8_t *bytes)
{
    uint64_t first = d->skip << 40 | d->cke << 39 | d->code << 35 | d->bank << 33 |
                     d->address << 20 | d->masks << 12 | d->zeros;
    for (unsigned i = 0; i < 8; i++) {
        bytes[i] = (uint8_t)(first >> (56 - 8 * i));
        bytes[8 + i] = (uint8_t)(d->dq >> (56 - 8 * i));
    }
}

static void make_record(struct random *r, const struct state *s, const uint64_t *table,
                        uint64_t code, uint8_t *bytes)
{
    struct draft d;
    d.skip = random_skip(r, s, table);
    d.cke = !random_chance(r, 20);
    d.code = code;
    d.bank = fitting_bank(r, s, code);
    d.address = random_address(r, s, code);
    d.masks = random_masks(r);
    d.zeros = random_chance(r, 20) ? (uint64_t)1 << random_below(r, 12) : 0;
    d.dq = random_word(r);
    put_record(&d, bytes);
}

/* For a command that wants every bank closed, mostly long ago. */
static void close_banks(struct random *r, struct state *s)
{
    for (unsigned i = 0; i < STATE_BANKS; i++) {
        struct bank *b = &s->bank[i];
        if (b->status == CLOSED)
            continue;
        b->status = CLOSED;
        b->row = 0;
        b->opened = 0;
        b->closing = random_chance(r, 700) ? 0 : closing_near(r, s->period, s->last.clock);
    }
}

/* ---- Damage ---- */

static const uint64_t bounds[] = {
    0, 1, 2, 3, 4, 5, 7, 8, 255, 256, 257, 999, 1000, 2047, 2048, 8191, 8192, 65535, 65536, 65537,
    0xFFFFFF, 0x100000000, 0x100000001, CLOCK_MAX, CLOCK_MAX + 1, 2 * CLOCK_MAX, 2 * CLOCK_MAX + 1,
    (uint64_t)1 << 58, ((uint64_t)1 << 58) + 1, (uint64_t)1 << 63, UINT64_MAX - 1, UINT64_MAX};

enum { BOUNDS = sizeof bounds / sizeof bounds[0] };

/* The most that a word may be: of the first fourteen, of a burst, of the masks, of a
 * bank. 237 hex is the largest mode word. */
static uint64_t most_of(uint64_t place)
{
    static const uint64_t of_first[14] = {65535, 2, 3, 8191, 2 * CLOCK_MAX, 1, CLOCK_MAX, 1,
                                          CLOCK_MAX, 2, CLOCK_MAX, 1, 0x237, CLOCK_MAX};
    static const uint64_t of_burst[9] = {1, 1, 3, 8191, 2047, CLOCK_MAX, 1, CLOCK_MAX, 0x237};
    static const uint64_t of_bank[8] = {2, 8191, CLOCK_MAX, (uint64_t)1 << 58, 1, CLOCK_MAX, 1,
                                        CLOCK_MAX};
    if (place < 14)
        return of_first[place];
    if (place < 59)
        return of_burst[(place - 14) % 9];
    return place < 62 ? 255 : of_bank[(place - 62) % 8];
}

/* The most that a word may be, or one more; mostly of a word that is in use. */
static void damage_bound(struct random *r, uint64_t *words)
{
    uint64_t place = random_below(r, STATE_WORDS);
    for (unsigned tries = 0; tries < 6 && words[place] < 2; tries++)
        place = random_below(r, STATE_WORDS);
    words[place] = most_of(place) + random_below(r, 2);
}

/* One word: any bound, one more or less, another bit, another word, or a high bit. */
static void damage_word(struct random *r, uint64_t *words)
{
    uint64_t *word = &words[random_below(r, STATE_WORDS)];
    switch (random_below(r, 6)) {
    case 0:
    case 1:
        *word = bounds[random_below(r, BOUNDS)];
        break;
    case 2:
        *word += random_chance(r, 500) ? 1 : UINT64_MAX;
        break;
    case 3:
        *word ^= (uint64_t)1 << random_below(r, 14);
        break;
    case 4:
        *word = words[random_below(r, STATE_WORDS)];
        break;
    default:
        *word ^= (uint64_t)1 << random_below(r, 64);
    }
}

/* A kind turned into another, with the numbers beside it as they are. */
static void damage_kind(struct random *r, uint64_t *words)
{
    static const uint8_t kinds[] = {5, 7, 9, 11, 14, 15, 20, 23, 24, 29, 62, 66, 68, 70, 74, 76,
                                    78, 82, 84, 86, 90, 92};
    uint64_t *word = &words[kinds[random_below(r, sizeof kinds)]];
    *word = random_below(r, 4);
}

static void damage_period(struct random *r, struct call *c)
{
    static const uint64_t edge[8] = {0, 999, 1000, 65535, 65536, 0x100001D4C, UINT64_MAX, 1};
    c->state[0] = edge[random_below(r, 8)];
}

static void damage_grade(struct random *r, struct call *c)
{
    static const uint64_t edge[8] = {0, 1, 2, 3, 4, 255, 257, 0x100000001};
    c->state[1] = edge[random_below(r, 8)];
}

/* Just outside a bound, far outside, on it, or tRAS min above max. */
static void damage_table(struct random *r, struct call *c)
{
    uint64_t place = random_below(r, TABLE);
    uint64_t bound = place == TMRD ? 15 : TABLE_TIME_MAX;
    switch (random_below(r, 4)) {
    case 0:
        c->table[TRAS_MIN] = c->table[TRAS_MAX] + 1;
        break;
    case 1:
        c->table[place] = UINT64_MAX;
        break;
    case 2:
        c->table[place] = bound;
        break;
    default:
        c->table[place] = bound + 1;
    }
}

static void damage_lengths(struct random *r, struct call *c, uint64_t which)
{
    static const size_t page[6] = {0, 1, 16383, 16385, 16376, 16392};
    static const size_t record[5] = {0, 1, 15, 17, 32};
    static const size_t state[5] = {0, 1, 93, 95, 96};
    if (which == 0)
        c->page_len = page[random_below(r, 6)];
    else if (which == 1)
        c->record_len = record[random_below(r, 5)];
    else
        c->state_len = state[random_below(r, 5)];
}

static void damage(struct random *r, struct call *c, uint64_t which)
{
    switch (which) {
    case 0:
    case 1:
    case 2:
        damage_lengths(r, c, which);
        break;
    case 3:
        damage_period(r, c);
        break;
    case 4:
        damage_grade(r, c);
        break;
    case 5:
        damage_table(r, c);
        break;
    case 6:
        damage_kind(r, c->state);
        break;
    case 7:
    case 8:
    case 9:
        damage_bound(r, c->state);
        break;
    default:
        damage_word(r, c->state);
    }
}

/* None mostly; else one, sometimes several: the order of the numbers shows then. */
static void damage_call(struct random *r, struct call *c)
{
    if (random_chance(r, 750))
        return;
    do
        damage(r, c, random_below(r, 13));
    while (random_chance(r, 350));
}

/* Words that are nothing at all, behind a period and a grade that pass. */
static void make_wild_words(struct random *r, uint64_t *words)
{
    for (unsigned i = 2; i < STATE_WORDS; i++) {
        uint64_t bits = random_between(r, 1, 64);
        words[i] = random_word(r) >> (64 - bits);
    }
}

/* ---- The calls ---- */

void make_odd(struct random *r, const uint64_t reached[STATE_WORDS], const uint64_t table[13],
              struct call *c)
{
    struct state s;
    if (reached == NULL || random_chance(r, 500)) {
        make_state(r, &s);
        own_table(r, s.period, c->table);
    } else {
        read_words(reached, &s);
        alter_state(r, &s);
        memcpy(c->table, table, sizeof c->table);
    }
    uint64_t code = random_code(r);
    if (code <= CODE_AUTO_REFRESH && random_chance(r, 800))
        close_banks(r, &s);
    memset(c->state, 0xA5, sizeof c->state);
    memset(c->record, 0xA5, sizeof c->record);
    write_words(&s, c->state);
    if (random_chance(r, 5))
        make_wild_words(r, c->state);
    make_record(r, &s, c->table, code, c->record);
    c->state_len = STATE_WORDS;
    c->record_len = 16;
    c->page_len = HAWSEHOLE_PAGE_BYTES;
    c->beat_len = random_chance(r, 900) ? 2 : random_below(r, 4);
    damage_call(r, c);
}

void make_odd_start(struct random *r, struct start_call *c)
{
    c->state_len = random_chance(r, 900) ? STATE_WORDS : random_between(r, 92, 96);
    c->period = random_chance(r, 800) ? random_period(r) : bounds[random_below(r, BOUNDS)];
    c->grade = random_chance(r, 800) ? random_between(r, 1, 2) : bounds[random_below(r, BOUNDS)];
    c->bank = random_chance(r, 900) ? random_below(r, 4) : bounds[random_below(r, BOUNDS)];
    c->row = random_chance(r, 900) ? random_below(r, 8192) : bounds[random_below(r, BOUNDS)];
}
