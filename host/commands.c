/* Drafts of commands. Bits that a command ignores are random: document 01's
 * judge must not read them. */
#include "commands.h"

static uint64_t random_masks(struct making *m)
{
    uint64_t lane = (uint64_t)1 << random_below(&m->random, 8);
    if (random_chance(&m->random, 650))
        return m->usual_masks;
    switch (random_below(&m->random, 8)) {
    case 0:
    case 1:
        return 0x00;
    case 2:
        return 0xFF;
    case 3:
        return 0xF0;
    case 4:
        return 0x0F;
    case 5:
        return lane;
    case 6:
        return ~lane & 0xFF;
    default:
        return random_below(&m->random, 256);
    }
}

static struct draft draft_of(struct making *m, uint64_t code, uint64_t bank, uint64_t address)
{
    struct draft r;
    r.skip = 0;
    r.cke = 1;
    r.code = code;
    r.bank = bank;
    r.address = address;
    r.masks = random_masks(m);
    r.zeros = 0;
    r.dq = random_word(&m->random);
    return r;
}

static uint64_t any_bank(struct making *m)
{
    return random_below(&m->random, 4);
}

static uint64_t any_address(struct making *m)
{
    return random_below(&m->random, 8192);
}

static struct draft draft_anywhere(struct making *m, uint64_t code)
{
    uint64_t bank = any_bank(m);
    return draft_of(m, code, bank, any_address(m));
}

/* ---- Banks ---- */

bool some_open(const struct making *m)
{
    return m->d.bank[0].open || m->d.bank[1].open || m->d.bank[2].open || m->d.bank[3].open;
}

static uint64_t some_bank(struct making *m, bool open)
{
    if (m->d.bank[m->watched_bank].open == open && random_chance(&m->random, 600))
        return m->watched_bank;
    uint64_t bank = any_bank(m);
    for (unsigned tries = 0; tries < 4 && m->d.bank[bank].open != open; tries++)
        bank = (bank + 1) % 4;
    return bank;
}

uint64_t some_open_bank(struct making *m)
{
    return some_bank(m, true);
}

uint64_t some_closed_bank(struct making *m)
{
    return some_bank(m, false);
}

/* ---- Addresses ---- */

static uint64_t random_row(struct making *m)
{
    if (random_chance(&m->random, 700))
        return m->watched_row;
    switch (random_below(&m->random, 4)) {
    case 0:
        return m->watched_row ^ 1;
    case 1:
        return 8191;
    default:
        return any_address(m);
    }
}

/* A column often stands near the end of the page, where full page wraps. */
static uint64_t random_column(struct making *m)
{
    switch (random_below(&m->random, 4)) {
    case 0:
        return random_between(&m->random, 2040, 2047);
    case 1:
        return random_below(&m->random, 16);
    case 2:
        return random_between(&m->random, 1020, 1027);
    default:
        return random_below(&m->random, 2048);
    }
}

/* Column is A11 then A9 to A0, A10 asks auto precharge, A12 is ignored. */
static uint64_t column_address(struct making *m, bool auto_precharge)
{
    uint64_t column = random_column(m);
    uint64_t a12 = random_below(&m->random, 2);
    return a12 << 12 | (column >> 10) << 11 | (uint64_t)auto_precharge << 10 | (column & 0x3FF);
}

/* ---- Commands ---- */

struct draft draft_nop(struct making *m)
{
    uint64_t code = CODE_NOP;
    if (random_chance(&m->random, 200))
        code = random_between(&m->random, CODE_COMMAND_INHIBIT, 15);
    return draft_anywhere(m, code);
}

struct draft draft_active(struct making *m, uint64_t bank)
{
    return draft_of(m, CODE_ACTIVE, bank, random_row(m));
}

struct draft draft_read(struct making *m, uint64_t bank, bool auto_precharge)
{
    return draft_of(m, CODE_READ, bank, column_address(m, auto_precharge));
}

struct draft draft_write(struct making *m, uint64_t bank, bool auto_precharge)
{
    return draft_of(m, CODE_WRITE, bank, column_address(m, auto_precharge));
}

struct draft draft_precharge(struct making *m, uint64_t bank)
{
    return draft_of(m, CODE_PRECHARGE, bank, any_address(m) & ~(uint64_t)DRAFT_A10);
}

struct draft draft_precharge_all(struct making *m)
{
    struct draft r = draft_anywhere(m, CODE_PRECHARGE);
    r.address |= DRAFT_A10;
    return r;
}

struct draft draft_refresh(struct making *m)
{
    return draft_anywhere(m, CODE_AUTO_REFRESH);
}

struct draft draft_burst_terminate(struct making *m)
{
    return draft_anywhere(m, CODE_BURST_TERMINATE);
}

/* Length 1, 2, 4, 8 or full page; interleaved or not; CL 2 or 3; M9. */
struct draft draft_load_mode(struct making *m)
{
    static const uint64_t length[8] = {0, 1, 2, 2, 3, 3, 7, 7};
    uint64_t word = length[random_below(&m->random, 8)];
    if (word != 7)
        word |= random_below(&m->random, 2) << 3;
    word |= random_between(&m->random, 2, 3) << 4;
    if (random_chance(&m->random, 250))
        word |= (uint64_t)1 << 9;
    return draft_of(m, CODE_LOAD_MODE, 0, word);
}

/* A named word with one bit turned, a bank bit set, or any word at all. */
struct draft draft_reserved_mode(struct making *m)
{
    struct draft r = draft_load_mode(m);
    uint64_t kind = random_below(&m->random, 10);
    if (kind < 7)
        r.address ^= (uint64_t)1 << random_below(&m->random, 13);
    else if (kind < 9)
        r.address = any_address(m);
    else
        r.bank = random_between(&m->random, 1, 3);
    return r;
}

struct draft draft_any(struct making *m)
{
    return draft_anywhere(m, random_below(&m->random, 9));
}

/* ---- The walk ---- */

/* Whether a limit comes up within so many clocks. */
static bool near(const struct making *m, uint64_t limit, uint64_t clocks)
{
    return limit != UINT64_MAX && limit < (m->d.next_clock + clocks) * m->d.period;
}

/* With every bank closed: mostly ACTIVE, sometimes another mode or a refresh. */
static struct draft next_all_closed(struct making *m)
{
    uint64_t kind = random_below(&m->random, 100);
    if (near(m, m->d.refresh_limit, 24) && kind < 60)
        return draft_refresh(m);
    if (kind < 66)
        return draft_active(m, some_closed_bank(m));
    if (kind < 74)
        return draft_refresh(m);
    if (kind < 83)
        return draft_load_mode(m);
    if (kind < 87)
        return draft_precharge(m, any_bank(m));
    if (kind < 90)
        return draft_precharge_all(m);
    if (kind < 92)
        return draft_burst_terminate(m);
    return draft_nop(m);
}

static struct draft next_some_open(struct making *m)
{
    uint64_t kind = random_below(&m->random, 100);
    bool auto_precharge = random_chance(&m->random, 140);
    if (near(m, m->d.refresh_limit, 24) && kind < 50)
        return draft_precharge_all(m);
    if (near(m, m->d.row_limit, 12) && kind < 60)
        return draft_precharge_all(m);
    if (kind < 12)
        return draft_active(m, some_closed_bank(m));
    if (kind < 34)
        return draft_read(m, some_open_bank(m), auto_precharge);
    if (kind < 56)
        return draft_write(m, some_open_bank(m), auto_precharge);
    if (kind < 62)
        return draft_burst_terminate(m);
    if (kind < 69)
        return draft_precharge(m, some_open_bank(m));
    if (kind < 71)
        return draft_precharge(m, any_bank(m));
    if (kind < 75)
        return draft_precharge_all(m);
    return draft_nop(m);
}

struct draft draft_next(struct making *m)
{
    return some_open(m) ? next_some_open(m) : next_all_closed(m);
}
