/* A trace in the making: records are drafted, put on a clock that the plain
 * judge is asked about, and written down. */
#ifndef DRAFT_H
#define DRAFT_H

#include "plain.h"
#include "random.h"

/* CS#, RAS#, CAS#, WE# as 003 table 8 has them; 8 to 15 are COMMAND INHIBIT. */
enum {
    CODE_LOAD_MODE, CODE_AUTO_REFRESH, CODE_PRECHARGE, CODE_ACTIVE, CODE_WRITE,
    CODE_READ, CODE_BURST_TERMINATE, CODE_NOP, CODE_COMMAND_INHIBIT
};

#define DRAFT_A10 0x400u
#define SKIP_MAX 0xFFFFFFu

struct draft {
    uint64_t skip;
    uint64_t cke;
    uint64_t code;
    uint64_t bank;
    uint64_t address;
    uint64_t masks;
    uint64_t zeros;
    uint64_t dq;
};

struct making {
    struct random random;
    uint8_t *trace; /* header and records, in so many bytes at most */
    size_t room;
    struct plain_device d; /* after the records so far, while none is refused */
    uint64_t watched_bank;
    uint64_t watched_row;
    uint64_t usual_masks;
    size_t records;
    bool refused; /* what follows is never read by a judge */
};

/* The verdict on the drafted record after so many skipped clocks. */
uint32_t ask_at(const struct making *m, const struct draft *r, uint64_t skip);

/* Writes the record down as it is. */
void put(struct making *m, const struct draft *r);

/* Writes the header of the records put so far; the length of the trace. */
size_t write_header(const struct making *m, uint64_t grade);

/* The least skip at which the record is no longer too soon (its verdict is
 * none of 14, 16, 19, 20 that waiting cures); false if there is none. */
bool earliest_skip(const struct making *m, const struct draft *r, uint64_t *skip);

/* The least skip at which the record is too late (12, 13, 22); false if none. */
bool latest_skip(const struct making *m, const struct draft *r, uint64_t *skip);

/* Puts the record on its earliest legal clock or a little after; puts nothing
 * and gives false where it has none. */
bool put_legal(struct making *m, struct draft *r);

/* Puts the record before its earliest clock, mostly just before. */
void put_early(struct making *m, struct draft *r);

/* Puts the record on the last clock that is not too late, or just after. */
void put_at_limit(struct making *m, struct draft *r);

#endif
