/* Deep random cases from a seed: table and header, start-up, a legal walk, an
 * aim, and for some cases a damaged header at last. */
#include "generate.h"

#include "../include/hawsehole.h"
#include "aims.h"
#include "commands.h"

#include <string.h>

enum { TIMES = 12, TRAS_MIN = 2, TRAS_MAX = 3, REFRESH_INTERVAL = 11, TMRD = 12 };

#define TIME_MAX 200000000u

/* ---- Tables ---- */

static const uint64_t grade_table[2][13] = {{HAWSEHOLE_GRADE_13E}, {HAWSEHOLE_GRADE_133}};

/* A time at an edge: nothing, one, about some clocks, the most. */
static uint64_t odd_time(struct random *r, uint64_t period)
{
    switch (random_below(r, 8)) {
    case 0:
        return 0;
    case 1:
        return 1;
    case 2:
        return period * random_between(r, 1, 9);
    case 3:
        return period * random_between(r, 1, 9) - 1;
    case 4:
        return period * random_between(r, 1, 9) + 1;
    case 5:
        return random_below(r, 100000);
    case 6:
        return random_below(r, 30) == 0 ? TIME_MAX : random_below(r, 10 * period);
    default:
        return random_below(r, 4 * period);
    }
}

/* Maxima long enough that a trace gets somewhere. */
static void wide_maxima(struct random *r, uint64_t *table)
{
    table[TRAS_MAX] = random_chance(r, 500) ? TIME_MAX : 120000000;
    table[REFRESH_INTERVAL] = random_chance(r, 500) ? TIME_MAX : 7812500;
}

/* Maxima that a trace of some records meets: tRAS max, the interval or both. */
static void tight_maxima(struct random *r, uint64_t *table, uint64_t period)
{
    uint64_t kind = random_below(r, 8);
    if (kind != 0)
        table[TRAS_MAX] = table[TRAS_MIN] + random_below(r, 60 * period);
    if (kind < 2)
        table[REFRESH_INTERVAL] = random_below(r, 300 * period);
    if (table[TRAS_MAX] > TIME_MAX)
        table[TRAS_MAX] = TIME_MAX;
}

static void own_table(struct random *r, uint64_t *table, uint64_t period)
{
    uint64_t kind = random_below(r, 4);
    memset(table, 0, 13 * sizeof table[0]);
    for (unsigned i = 0; i < TIMES; i++) {
        if (kind == 1)
            table[i] = random_below(r, 3 * period);
        else if (kind >= 2)
            table[i] = odd_time(r, period);
    }
    if (kind != 0)
        table[TMRD] = random_chance(r, 100) ? 15 : random_below(r, 5);
    wide_maxima(r, table);
    if (random_chance(r, 200))
        tight_maxima(r, table, period);
}

static void altered_table(struct random *r, uint64_t *table, uint64_t period)
{
    for (uint64_t n = random_between(r, 1, 3); n > 0; n--) {
        uint64_t place = random_below(r, 13);
        table[place] = place == TMRD ? random_below(r, 16) : odd_time(r, period);
    }
}

/* tCK of both latencies at or below the period, at times one of them above. */
static void fit_tck(struct random *r, uint64_t *table, uint64_t period)
{
    for (unsigned i = 0; i < 2; i++)
        if (table[i] > period)
            table[i] = random_chance(r, 300) ? period : random_below(r, period);
    if (random_chance(r, 150)) {
        uint64_t place = random_below(r, 2);
        table[place] = period + random_between(r, 1, 2000);
    }
}

/* A grade's table, one with some numbers altered, or an own one; with maxima
 * and tCK that let the aim be reached. */
static void choose_table(struct random *r, uint64_t *table, uint64_t period, uint64_t grade,
                         enum aim aim)
{
    uint64_t kind = random_below(r, 100);
    memcpy(table, grade_table[grade - 1], 13 * sizeof table[0]);
    if (kind >= 60)
        own_table(r, table, period);
    else if (kind >= 35)
        altered_table(r, table, period);
    if (kind >= 35 || (period < table[0] && period < table[1] && random_chance(r, 900)))
        fit_tck(r, table, period);
    if ((aim == AIM_LATE || aim == AIM_AUTO_LATE) && random_chance(r, 650))
        tight_maxima(r, table, period);
    if (aim == AIM_MODE && random_chance(r, 300))
        table[random_below(r, 2)] = period + 1;
    if (table[TRAS_MIN] > table[TRAS_MAX])
        table[TRAS_MAX] = table[TRAS_MIN];
}

static uint64_t choose_period(struct random *r)
{
    static const uint64_t usual[8] = {7500, 7500, 7000, 10000, 9000, 1000, 65535, 8000};
    if (random_chance(r, 750))
        return usual[random_below(r, 8)];
    return random_between(r, 1000, random_chance(r, 500) ? 12000 : 65535);
}

/* ---- Start-up ---- */

/* A legal record of this kind, or a NOP that makes time pass. */
static void step(struct making *m, struct draft r)
{
    if (m->refused || put_legal(m, &r))
        return;
    r = draft_nop(m);
    r.skip = 0;
    put(m, &r);
}

static void start_up(struct making *m)
{
    for (uint64_t n = random_below(&m->random, 3); n > 0; n--)
        step(m, draft_nop(m));
    step(m, draft_precharge_all(m));
    uint64_t refreshes = random_chance(&m->random, 850) ? 2 : random_between(&m->random, 2, 5);
    for (; refreshes > 0; refreshes--) {
        step(m, draft_refresh(m));
        if (random_chance(&m->random, 80))
            step(m, draft_precharge(m, random_below(&m->random, 4)));
    }
    if (random_chance(&m->random, 60))
        step(m, draft_precharge_all(m));
    for (unsigned tries = 0; tries < 6 && !m->d.mode.loaded && !m->refused; tries++) {
        struct draft load = draft_load_mode(m);
        put_legal(m, &load);
    }
}

/* Start-up that stops anywhere, for an aim at 14. */
static void part_of_start_up(struct making *m)
{
    uint64_t steps = random_below(&m->random, 5);
    if (steps > 0)
        step(m, draft_precharge_all(m));
    for (; steps > 1; steps--)
        step(m, random_chance(&m->random, 750) ? draft_refresh(m) : draft_precharge_all(m));
}

/* ---- The walk ---- */

static uint64_t choose_length(struct random *r)
{
    uint64_t kind = random_below(r, 10000);
    if (kind < 3)
        return random_between(r, 200, 400);
    if (kind < 2500)
        return random_below(r, 12);
    return random_between(r, 4, kind < 8500 ? 36 : 80);
}

/* Mostly legal records. One in some hundred stands where it falls. */
static void walk(struct making *m, uint64_t length)
{
    for (uint64_t n = 0; n < length && !m->refused; n++) {
        if (random_chance(&m->random, 7)) {
            struct draft r = draft_next(m);
            put_early(m, &r);
        } else {
            step(m, draft_next(m));
        }
    }
}

/* Records that no judge may read after a refused one; a clean trace mostly
 * stays as it is. */
static void records_after(struct making *m)
{
    if (!m->refused && random_chance(&m->random, 900))
        return;
    for (uint64_t n = random_below(&m->random, 3); n > 0; n--) {
        struct draft r = draft_any(m);
        r.skip = random_below(&m->random, 30);
        put(m, &r);
    }
}

static enum aim choose_aim(struct random *r)
{
    static const uint8_t weight[AIMS] = {8, 3, 3, 9, 4, 6, 31, 8, 8, 9, 3, 7, 1};
    uint64_t left = random_below(r, 100);
    for (unsigned aim = 0; aim < AIMS; aim++) {
        if (left < weight[aim])
            return (enum aim)aim;
        left -= weight[aim];
    }
    return AIM_CLEAN;
}

static void make_records(struct making *m, enum aim aim)
{
    if (aim == AIM_START_UP) {
        part_of_start_up(m);
    } else {
        start_up(m);
        walk(m, choose_length(&m->random));
    }
    take_aim(m, aim);
    records_after(m);
}

/* Random bytes from some place on, with small skips. */
static void make_wild_records(struct making *m)
{
    if (random_chance(&m->random, 700))
        start_up(m);
    for (uint64_t n = random_below(&m->random, 12); n > 0; n--) {
        struct draft r = draft_any(m);
        r.skip = random_chance(&m->random, 850) ? random_below(&m->random, 12)
                                                : random_below(&m->random, 200000);
        put(m, &r);
    }
}

/* ---- Damage ---- */

static void damage_length(struct random *r, struct test_case *c)
{
    switch (random_below(r, 5)) {
    case 0:
        c->trace_len = random_below(r, 16);
        break;
    case 1:
        c->trace_len -= random_between(r, 0, c->trace_len < 16 ? c->trace_len : 16);
        break;
    case 2:
        memset(c->trace + c->trace_len, 0, 16);
        c->trace_len += random_between(r, 1, 16);
        break;
    case 3:
        c->trace[4] = (uint8_t)random_word(r);
        break;
    default:
        c->trace[5] ^= (uint8_t)(1 << random_below(r, 8));
    }
}

static void damage_period(struct random *r, struct test_case *c)
{
    static const uint32_t edge[6] = {0, 1, 999, 65536, 65537, 0xFFFFFF};
    uint32_t period = edge[random_below(r, 6)];
    c->trace[1] = (uint8_t)(period >> 16);
    c->trace[2] = (uint8_t)(period >> 8);
    c->trace[3] = (uint8_t)period;
}

static void damage_zeros(struct random *r, struct test_case *c)
{
    uint64_t bit = random_below(r, 57);
    c->trace[15 - bit / 8] |= (uint8_t)(1 << bit % 8);
}

/* Just outside the bounds, far outside, or tRAS min above max. */
static void damage_table(struct random *r, struct test_case *c)
{
    uint64_t place = random_below(r, 13);
    uint64_t bound = place == TMRD ? 15 : TIME_MAX;
    switch (random_below(r, 5)) {
    case 0:
        c->table[TRAS_MIN] = random_below(r, 200000) + 1;
        c->table[TRAS_MAX] = c->table[TRAS_MIN] - 1;
        break;
    case 1:
        c->table[place] = UINT64_MAX;
        break;
    case 2:
        c->table[place] = bound; /* still in bounds */
        break;
    default:
        c->table[place] = bound + 1;
    }
}

static void damage_page(struct random *r, struct test_case *c)
{
    static const size_t length[6] = {0, 1, 16383, 16385, 16376, 16392};
    c->page_len = length[random_below(r, 6)];
}

/* `number` is the one of 1 to 7 that the damage is for. */
static void damage(struct random *r, struct test_case *c, uint64_t number)
{
    switch (number) {
    case 1:
        damage_length(r, c);
        break;
    case 2:
        c->trace[0] = (uint8_t)random_word(r);
        break;
    case 3:
        damage_period(r, c);
        break;
    case 4:
        c->trace[6] = random_chance(r, 500) ? (uint8_t)(3 * random_below(r, 2))
                                            : (uint8_t)random_word(r);
        break;
    case 5:
        damage_zeros(r, c);
        break;
    case 6:
        damage_table(r, c);
        break;
    default:
        damage_page(r, c);
    }
}

/* One damage, sometimes two or three: the order of 1 to 7 shows then. */
static void damage_case(struct random *r, struct test_case *c)
{
    do
        damage(r, c, random_between(r, 1, 7));
    while (random_chance(r, 300));
}

/* ---- The case ---- */

static void lend_page(struct random *r, struct test_case *c)
{
    uint8_t bytes[64];
    for (unsigned i = 0; i < sizeof bytes; i++)
        bytes[i] = (uint8_t)(random_word(r) >> 56);
    c->page_len = 16384;
    fill_page(c, bytes, sizeof bytes);
}

/* Mostly two words for each record; sometimes none, one too few, any number of
 * them, or some too many. */
static void lend_beats(struct random *r, struct test_case *c)
{
    size_t wanted = 2 * (c->trace_len / 16);
    c->beats_len = wanted;
    if (random_chance(r, 900))
        return;
    switch (random_below(r, 4)) {
    case 0:
        c->beats_len = 0;
        break;
    case 1:
        c->beats_len = wanted == 0 ? 0 : wanted - 1;
        break;
    case 2:
        c->beats_len = (size_t)random_below(r, wanted + 1);
        break;
    default:
        c->beats_len = wanted + (size_t)random_below(r, 4);
    }
}

void generate(uint64_t seed, struct test_case *c)
{
    struct making m;
    m.random.state = seed * 0xD1342543DE82EF95;
    m.trace = c->trace;
    m.room = sizeof c->trace;
    m.records = 0;
    m.refused = false;
    m.watched_bank = random_below(&m.random, 4);
    m.watched_row = random_chance(&m.random, 500) ? 7 : random_below(&m.random, 8192);
    m.usual_masks = random_chance(&m.random, 600) ? 0 : random_below(&m.random, 2) * 0xFF;
    uint64_t grade = random_between(&m.random, 1, 2);
    uint64_t period = choose_period(&m.random);
    enum aim aim = choose_aim(&m.random);
    choose_table(&m.random, c->table, period, grade, aim);
    plain_begin(&m.d, period, c->table);
    bool damaged = random_chance(&m.random, 50);
    if (damaged || random_chance(&m.random, 30))
        make_wild_records(&m);
    else
        make_records(&m, aim);
    c->trace_len = write_header(&m, grade);
    lend_page(&m.random, c);
    if (damaged)
        damage_case(&m.random, c);
    lend_beats(&m.random, c);
}
