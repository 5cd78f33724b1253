/* The state's words, in their order. */
#include "words.h"

/* ---- Reading: each function takes the next words ---- */

static uint64_t next_number(const uint64_t **at)
{
    return *(*at)++;
}

static uint64_t next_up_to(const uint64_t **at, uint64_t most)
{
    uint64_t number = next_number(at);
    return number < most ? number : most;
}

static uint64_t next_byte(const uint64_t **at)
{
    return next_up_to(at, 0xFF);
}

static uint64_t next_half(const uint64_t **at)
{
    return next_up_to(at, 0xFFFF);
}

/* Of two cases: 0 is the first, any other the second. */
static bool next_flag(const uint64_t **at)
{
    return next_number(at) != 0;
}

/* A number that only some cases use. */
static uint64_t next_where(const uint64_t **at, bool used)
{
    uint64_t number = next_number(at);
    return used ? number : 0;
}

static uint64_t next_half_where(const uint64_t **at, bool used)
{
    uint64_t number = next_half(at);
    return used ? number : 0;
}

static struct event next_event(const uint64_t **at)
{
    struct event e;
    e.been = next_flag(at);
    e.clock = next_where(at, e.been);
    return e;
}

static struct burst next_burst(const uint64_t **at)
{
    struct burst b;
    b.live = next_flag(at);
    b.auto_precharge = next_flag(at);
    b.bank = next_byte(at);
    b.row = next_half(at);
    b.column = next_half(at);
    b.start = next_number(at);
    b.cut = next_event(at);
    b.mode = next_half(at);
    return b;
}

static struct bank next_bank(const uint64_t **at)
{
    struct bank b;
    b.status = (enum status)next_up_to(at, CLOSED);
    b.row = next_half_where(at, b.status == OPEN);
    b.opened = next_where(at, b.status == OPEN);
    b.closing = next_where(at, b.status == CLOSED);
    b.active = next_event(at);
    b.stored = next_event(at);
    return b;
}

void read_words(const uint64_t words[STATE_WORDS], struct state *s)
{
    const uint64_t *at = words;
    s->period = next_number(&at);
    s->grade = next_byte(&at);
    s->watched_bank = next_byte(&at);
    s->watched_row = next_half(&at);
    s->number = next_number(&at);
    s->last = next_event(&at);
    s->precharge_all = next_event(&at);
    s->refreshes = next_up_to(&at, 2);
    s->refresh = next_where(&at, s->refreshes != 0);
    s->loaded = next_flag(&at);
    s->mode = next_half_where(&at, s->loaded);
    s->load = next_where(&at, s->loaded);
    s->write = next_burst(&at);
    for (unsigned i = 0; i < STATE_READS; i++)
        s->read[i] = next_burst(&at);
    for (unsigned i = 0; i < 3; i++)
        s->masks[i] = next_byte(&at);
    for (unsigned i = 0; i < STATE_BANKS; i++)
        s->bank[i] = next_bank(&at);
}

/* ---- Writing: each function puts the next words ---- */

static void put_number(uint64_t **at, uint64_t number)
{
    *(*at)++ = number;
}

static void put_where(uint64_t **at, bool used, uint64_t number)
{
    put_number(at, used ? number : 0);
}

static void put_event(uint64_t **at, const struct event *e)
{
    put_number(at, e->been);
    put_where(at, e->been, e->clock);
}

static void put_burst(uint64_t **at, const struct burst *b)
{
    put_number(at, b->live);
    put_number(at, b->auto_precharge);
    put_number(at, b->bank);
    put_number(at, b->row);
    put_number(at, b->column);
    put_number(at, b->start);
    put_event(at, &b->cut);
    put_number(at, b->mode);
}

static void put_bank(uint64_t **at, const struct bank *b)
{
    put_number(at, b->status);
    put_where(at, b->status == OPEN, b->row);
    put_where(at, b->status == OPEN, b->opened);
    put_where(at, b->status == CLOSED, b->closing);
    put_event(at, &b->active);
    put_event(at, &b->stored);
}

void write_words(const struct state *s, uint64_t words[STATE_WORDS])
{
    uint64_t *at = words;
    put_number(&at, s->period);
    put_number(&at, s->grade);
    put_number(&at, s->watched_bank);
    put_number(&at, s->watched_row);
    put_number(&at, s->number);
    put_event(&at, &s->last);
    put_event(&at, &s->precharge_all);
    put_number(&at, s->refreshes);
    put_where(&at, s->refreshes != 0, s->refresh);
    put_number(&at, s->loaded);
    put_where(&at, s->loaded, s->mode);
    put_where(&at, s->loaded, s->load);
    put_burst(&at, &s->write);
    for (unsigned i = 0; i < STATE_READS; i++)
        put_burst(&at, &s->read[i]);
    for (unsigned i = 0; i < 3; i++)
        put_number(&at, s->masks[i]);
    for (unsigned i = 0; i < STATE_BANKS; i++)
        put_bank(&at, &s->bank[i]);
}
