/* The last records of a case, aimed at one of document 01's numbers. */
#include "aims.h"

#include "commands.h"

/* ---- Steps that get the device where an aim wants it ---- */

static void legal(struct making *m, struct draft r)
{
    if (!m->refused)
        put_legal(m, &r);
}

static void early(struct making *m, struct draft r)
{
    if (!m->refused)
        put_early(m, &r);
}

static void at_skip(struct making *m, struct draft r, uint64_t skip)
{
    r.skip = skip;
    put(m, &r);
}

static uint64_t opened_bank(struct making *m)
{
    uint64_t bank = some_closed_bank(m);
    if (some_open(m) && random_chance(&m->random, 600))
        return some_open_bank(m);
    legal(m, draft_active(m, bank));
    return bank;
}

static void close_all(struct making *m)
{
    if (some_open(m))
        legal(m, draft_precharge_all(m));
}

static bool coin(struct making *m)
{
    return random_chance(&m->random, 500);
}

static struct draft read_or_write(struct making *m, uint64_t bank, bool auto_precharge)
{
    return coin(m) ? draft_read(m, bank, auto_precharge) : draft_write(m, bank, auto_precharge);
}

static struct draft any_fitting(struct making *m)
{
    return coin(m) ? draft_next(m) : draft_any(m);
}

/* Some record that stands too soon, if a few drafts find one. */
static void any_early(struct making *m)
{
    struct draft r = any_fitting(m);
    for (unsigned tries = 0; tries < 6 && (ask_at(m, &r, 0) & 0xFF) != 16; tries++)
        r = any_fitting(m);
    early(m, r);
}

/* ---- 16: one minimum each ---- */

static void aim_trcd(struct making *m)
{
    uint64_t bank = some_closed_bank(m);
    legal(m, draft_active(m, bank));
    early(m, read_or_write(m, bank, random_chance(&m->random, 200)));
}

/* In part after auto precharge of the same bank, whose stores no longer count
 * for tWR. */
static void aim_tras(struct making *m)
{
    uint64_t bank = some_closed_bank(m);
    legal(m, draft_active(m, bank));
    if (random_chance(&m->random, 300)) {
        legal(m, draft_write(m, bank, true));
        legal(m, draft_active(m, bank));
    } else if (coin(m)) {
        legal(m, read_or_write(m, bank, false));
    }
    early(m, coin(m) ? draft_precharge(m, bank) : draft_precharge_all(m));
}

static void aim_trc(struct making *m)
{
    uint64_t bank = some_closed_bank(m);
    legal(m, draft_active(m, bank));
    legal(m, coin(m) ? draft_precharge(m, bank) : read_or_write(m, bank, true));
    early(m, draft_active(m, bank));
}

static void aim_trp(struct making *m)
{
    uint64_t bank = opened_bank(m);
    switch (random_below(&m->random, 3)) {
    case 0:
        legal(m, draft_precharge(m, bank));
        break;
    case 1:
        legal(m, read_or_write(m, bank, true));
        break;
    default:
        legal(m, draft_precharge_all(m));
    }
    switch (random_below(&m->random, 5)) {
    case 0:
        early(m, draft_active(m, bank));
        break;
    case 1:
        early(m, draft_precharge(m, bank));
        break;
    case 2:
        early(m, draft_refresh(m));
        break;
    case 3:
        early(m, draft_load_mode(m));
        break;
    default:
        any_early(m);
    }
}

static void aim_trrd(struct making *m)
{
    legal(m, draft_active(m, some_closed_bank(m)));
    early(m, draft_active(m, some_closed_bank(m)));
}

static void aim_trfc(struct making *m)
{
    close_all(m);
    legal(m, draft_refresh(m));
    any_early(m);
}

/* The WRITE stands late, so that tRAS, which is named first, is met. */
static void aim_twr(struct making *m)
{
    uint64_t bank = opened_bank(m);
    for (uint64_t nops = random_below(&m->random, 3); nops > 0; nops--)
        legal(m, draft_nop(m));
    struct draft r = draft_write(m, bank, false);
    uint64_t skip;
    if (!m->refused && earliest_skip(m, &r, &skip) && skip + 12 < SKIP_MAX)
        at_skip(m, r, skip + random_below(&m->random, 12));
    for (uint64_t nops = random_below(&m->random, 4); nops > 0; nops--)
        legal(m, draft_nop(m));
    early(m, coin(m) ? draft_precharge(m, bank) : draft_precharge_all(m));
}

static void aim_tmrd(struct making *m)
{
    close_all(m);
    legal(m, draft_load_mode(m));
    any_early(m);
}

static void aim_minimum(struct making *m)
{
    static void (*const of_interval[8])(struct making *) = {
        aim_trcd, aim_tras, aim_trc, aim_trp, aim_trrd, aim_trfc, aim_twr, aim_tmrd
    };
    if (random_chance(&m->random, 200))
        any_early(m);
    else
        of_interval[random_below(&m->random, 8)](m);
}

/* ---- The other numbers ---- */

static void aim_zero_bit(struct making *m)
{
    struct draft r = any_fitting(m);
    r.zeros = (uint64_t)1 << random_below(&m->random, 12);
    if (coin(m))
        r.cke = random_below(&m->random, 2);
    at_skip(m, r, random_below(&m->random, 8));
}

static void aim_cke(struct making *m)
{
    struct draft r = any_fitting(m);
    r.cke = 0;
    at_skip(m, r, random_below(&m->random, 8));
}

/* On the last legal clock for refresh and open rows, just after, or before. */
static void aim_late(struct making *m)
{
    if (coin(m))
        opened_bank(m);
    struct draft r = coin(m) ? draft_nop(m) : any_fitting(m);
    if (!m->refused)
        put_at_limit(m, &r);
    if (m->refused || !coin(m))
        return;
    r = any_fitting(m);
    at_skip(m, r, random_below(&m->random, 2));
}

/* A PRECHARGE ALL before its 100,000,000 ps, another command once they have
 * passed, or a command that the step does not allow yet. */
static void aim_start_up(struct making *m)
{
    struct draft r = any_fitting(m);
    switch (random_below(&m->random, 4)) {
    case 0:
        early(m, draft_precharge_all(m));
        break;
    case 1:
        if (coin(m))
            r = draft_precharge(m, random_below(&m->random, 4));
        at_skip(m, r, 100000000 / m->d.period + random_below(&m->random, 3));
        break;
    case 2:
        early(m, r);
        break;
    default:
        at_skip(m, r, random_below(&m->random, 20));
    }
}

static void aim_bank(struct making *m)
{
    uint64_t bank = some_closed_bank(m);
    struct draft r = read_or_write(m, bank, random_chance(&m->random, 200));
    switch (random_below(&m->random, 4)) {
    case 0:
        r = draft_active(m, opened_bank(m));
        break;
    case 1:
        opened_bank(m);
        r = coin(m) ? draft_refresh(m) : draft_load_mode(m);
        break;
    default:
        break;
    }
    if (!m->refused)
        at_skip(m, r, random_below(&m->random, 20));
}

static void aim_mode(struct making *m)
{
    close_all(m);
    struct draft r = random_chance(&m->random, 650) ? draft_reserved_mode(m) : draft_load_mode(m);
    uint64_t skip = 0;
    if (!m->refused && earliest_skip(m, &r, &skip))
        at_skip(m, r, skip);
}

/* READ, WRITE or BURST TERMINATE round the end of an auto precharge burst. */
static void aim_unfinished(struct making *m)
{
    uint64_t other = opened_bank(m);
    uint64_t bank = some_closed_bank(m);
    legal(m, draft_active(m, bank));
    for (uint64_t nops = random_below(&m->random, 4); nops > 0; nops--)
        legal(m, draft_nop(m));
    legal(m, read_or_write(m, bank, true));
    struct draft r = coin(m) ? draft_burst_terminate(m) : read_or_write(m, other, false);
    if (m->refused)
        return;
    if (coin(m))
        early(m, r);
    else
        at_skip(m, r, random_below(&m->random, 9));
}

/* A WRITE while a READ's beats are near, with masks of all kinds between. */
static void aim_bus(struct making *m)
{
    uint64_t bank = opened_bank(m);
    legal(m, draft_read(m, bank, false));
    if (random_chance(&m->random, 300))
        legal(m, coin(m) ? draft_burst_terminate(m) : draft_read(m, bank, false));
    for (uint64_t nops = random_below(&m->random, 8); nops > 0 && !m->refused; nops--) {
        struct draft nop = draft_nop(m);
        at_skip(m, nop, random_chance(&m->random, 850) ? 0 : 1);
    }
    if (m->refused)
        return;
    struct draft r = draft_write(m, bank, random_chance(&m->random, 100));
    at_skip(m, r, random_chance(&m->random, 600) ? 0 : random_below(&m->random, 4));
}

/* Auto precharge in a full-page mode; other modes get 0 or 22. */
static void aim_full_page(struct making *m)
{
    close_all(m);
    struct draft load = draft_load_mode(m);
    load.address = (load.address & ~(uint64_t)0xF) | 7;
    legal(m, load);
    uint64_t bank = opened_bank(m);
    struct draft r = read_or_write(m, bank, true);
    uint64_t skip;
    if (!m->refused && earliest_skip(m, &r, &skip))
        at_skip(m, r, skip);
}

/* Auto precharge where the closing time meets ACTIVE + tRAS max. */
static void aim_auto_late(struct making *m)
{
    uint64_t bank = opened_bank(m);
    struct draft r = read_or_write(m, bank, true);
    if (!m->refused)
        put_at_limit(m, &r);
}

static void aim_any(struct making *m)
{
    struct draft r = any_fitting(m);
    at_skip(m, r, random_below(&m->random, 6));
}

void take_aim(struct making *m, enum aim aim)
{
    static void (*const of_aim[AIMS])(struct making *) = {
        NULL, aim_zero_bit, aim_cke, aim_late, aim_start_up, aim_bank, aim_minimum,
        aim_mode, aim_unfinished, aim_bus, aim_full_page, aim_auto_late, aim_any
    };
    if (of_aim[aim] != NULL && !m->refused)
        of_aim[aim](m);
}
