/* Single calls with states near admitted ones, most of which no trace reaches. */
#ifndef ODD_H
#define ODD_H

#include "random.h"
#include "words.h"

#include <stddef.h>

enum {
    CALL_STATE_ROOM = STATE_WORDS + 2, /* words past the state are watched */
    CALL_RECORD_ROOM = 32
};

/* What hawsehole_ask and hawsehole_take are given. Page and beat are lent beside
 * it, with these lengths. */
struct call {
    uint64_t table[13];
    uint64_t state[CALL_STATE_ROOM];
    size_t state_len;
    uint8_t record[CALL_RECORD_ROOM];
    size_t record_len;
    size_t page_len;
    size_t beat_len;
};

/* What hawsehole_start is given. */
struct start_call {
    size_t state_len;
    uint64_t period;
    uint64_t grade;
    uint64_t bank;
    uint64_t row;
};

/* A call on a state that lies near these words, which a trace with this table
 * reached; half of the calls, and all with no words (NULL), on a state of random
 * parts and with an own table. The record is aimed at what the state holds. */
void make_odd(struct random *r, const uint64_t reached[STATE_WORDS], const uint64_t table[13],
              struct call *c);

/* A start, with most of its numbers in bounds. */
void make_odd_start(struct random *r, struct start_call *c);

#endif
