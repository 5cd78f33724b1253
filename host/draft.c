/* Putting drafted records on, just before or just after their earliest clock. */
#include "draft.h"

static void store64(uint8_t *bytes, uint64_t word)
{
    for (unsigned i = 0; i < 8; i++)
        bytes[i] = (uint8_t)(word >> (56 - 8 * i));
}

static void encode(const struct draft *r, uint64_t skip, uint8_t *bytes)
{
    store64(bytes, skip << 40 | r->cke << 39 | r->code << 35 | r->bank << 33 |
                       r->address << 20 | r->masks << 12 | r->zeros);
    store64(bytes + 8, r->dq);
}

uint32_t ask_at(const struct making *m, const struct draft *r, uint64_t skip)
{
    uint8_t bytes[16];
    encode(r, skip, bytes);
    return plain_ask(&m->d, bytes);
}

void put(struct making *m, const struct draft *r)
{
    uint8_t *bytes = m->trace + 16 + 16 * m->records;
    if (16 + 16 * (m->records + 1) > m->room)
        return;
    encode(r, r->skip, bytes);
    m->records++;
    if (m->refused)
        return;
    if (plain_ask(&m->d, bytes) == 0)
        plain_take(&m->d, bytes);
    else
        m->refused = true;
}

/* version 8, period 24, count 16, grade 8, bank 2, row 13, zeros 57 */
size_t write_header(const struct making *m, uint64_t grade)
{
    store64(m->trace, (uint64_t)1 << 56 | m->d.period << 32 | (uint64_t)m->records << 16 |
                          grade << 8 | m->watched_bank << 6 | m->watched_row >> 7);
    store64(m->trace + 8, m->watched_row << 57);
    return 16 + 16 * m->records;
}

/* ---- Looking for a clock ---- */

/* Waiting cures a 14 only for the first PRECHARGE ALL. */
static bool not_too_soon(const struct making *m, const struct draft *r, uint32_t verdict)
{
    bool precharge_all = r->code == CODE_PRECHARGE && (r->address & DRAFT_A10) != 0;
    switch (verdict & 0xFF) {
    case 14:
        return m->d.precharged || !precharge_all;
    case 16:
    case 19:
    case 20:
        return false;
    default:
        return true;
    }
}

static bool too_late(const struct making *m, const struct draft *r, uint32_t verdict)
{
    (void)m;
    (void)r;
    return (verdict & 0xFF) == 12 || (verdict & 0xFF) == 13 || (verdict & 0xFF) == 22;
}

typedef bool turning(const struct making *m, const struct draft *r, uint32_t verdict);

/* The least skip from which on `turned` holds: doubling, then halving. */
static bool first_skip(const struct making *m, const struct draft *r, turning *turned,
                       uint64_t *skip)
{
    uint64_t low = 0, high = 1;
    *skip = 0;
    if (turned(m, r, ask_at(m, r, 0)))
        return true;
    while (!turned(m, r, ask_at(m, r, high))) {
        if (high == SKIP_MAX)
            return false;
        low = high;
        high = high * 2 > SKIP_MAX ? SKIP_MAX : high * 2;
    }
    while (high - low > 1) {
        uint64_t middle = low + (high - low) / 2;
        if (turned(m, r, ask_at(m, r, middle)))
            high = middle;
        else
            low = middle;
    }
    *skip = high;
    return true;
}

bool earliest_skip(const struct making *m, const struct draft *r, uint64_t *skip)
{
    return first_skip(m, r, not_too_soon, skip);
}

bool latest_skip(const struct making *m, const struct draft *r, uint64_t *skip)
{
    return first_skip(m, r, too_late, skip);
}

/* ---- Putting ---- */

/* How far after the earliest clock: mostly not at all. */
static uint64_t slack(struct random *r)
{
    uint64_t kind = random_below(r, 1000);
    if (kind < 660)
        return 0;
    if (kind < 780)
        return 1;
    if (kind < 890)
        return random_between(r, 2, 4);
    if (kind < 980)
        return random_below(r, 16);
    return random_below(r, 300);
}

bool put_legal(struct making *m, struct draft *r)
{
    uint64_t skip;
    if (!earliest_skip(m, r, &skip) || ask_at(m, r, skip) != 0)
        return false;
    r->skip = skip + slack(&m->random);
    if (r->skip > SKIP_MAX || ask_at(m, r, r->skip) != 0)
        r->skip = skip;
    put(m, r);
    return true;
}

void put_early(struct making *m, struct draft *r)
{
    uint64_t skip;
    r->skip = 0;
    if (earliest_skip(m, r, &skip) && skip > 0)
        r->skip = random_chance(&m->random, 700) ? skip - 1 : random_below(&m->random, skip);
    put(m, r);
}

void put_at_limit(struct making *m, struct draft *r)
{
    uint64_t skip;
    r->skip = 0;
    if (latest_skip(m, r, &skip) && skip > 0)
        r->skip = skip + random_below(&m->random, 3) - 1;
    if (r->skip > SKIP_MAX)
        r->skip = SKIP_MAX;
    put(m, r);
}
