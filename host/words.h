/* The state that the one-record call carries, and the words that hold it for C.
 *
 * To callers the words are opaque. Here they are taken apart, for whoever holds
 * the calls to document 01 or makes states that no trace reaches.
 *
 *   0 to 4    period, grade, watched bank, watched row, number of the next record
 *   5, 6      last clock: 0 never or 1, then the clock
 *   7, 8      last PRECHARGE ALL, in that form
 *   9, 10     refreshes: 0 none, 1 one, 2 two or more; the clock of the last
 *   11 to 13  mode register: 0 unloaded, 1 loaded; the word; the clock of its LOAD MODE
 *   14 to 58  five bursts of nine, the WRITE's and four READs': live, auto precharge,
 *             bank, row, column, start clock, cut (0 never or 1, the clock), mode word
 *   59 to 61  masks on the last record's clock and the two before
 *   62 to 93  four banks of eight: 0 not started, 1 open, 2 closed; row; the ACTIVE's
 *             clock; closing time in ps; last ACTIVE and last store (each 0 never or
 *             1, the clock) */
#ifndef WORDS_H
#define WORDS_H

#include <stdbool.h>
#include <stdint.h>

enum { STATE_WORDS = 94, STATE_BANKS = 4, STATE_READS = 4 };

/* Something that has never been, or stood last on a clock. */
struct event {
    bool been;
    uint64_t clock;
};

/* A READ or WRITE burst. One that is not live is no burst. */
struct burst {
    bool live;
    bool auto_precharge;
    uint64_t bank;
    uint64_t row;
    uint64_t column;
    uint64_t start; /* the clock of its registration */
    struct event cut;
    uint64_t mode; /* the mode word of its registration */
};

enum status { NOT_STARTED, OPEN, CLOSED };

struct bank {
    enum status status;
    uint64_t row;     /* of an open bank */
    uint64_t opened;  /* of an open bank, the clock of its ACTIVE */
    uint64_t closing; /* of a closed bank, its closing time in ps */
    struct event active; /* its last ACTIVE, closed since or not */
    struct event stored; /* the last clock on which a byte was stored in it after that */
};

struct state {
    uint64_t period;
    uint64_t grade;
    uint64_t watched_bank;
    uint64_t watched_row;
    uint64_t number; /* of the next record */
    struct event last;
    struct event precharge_all;
    uint64_t refreshes; /* done, counted to two */
    uint64_t refresh;   /* the clock of the last, where there is one */
    bool loaded;
    uint64_t mode; /* where loaded: the mode word, and the clock of its LOAD MODE */
    uint64_t load;
    struct burst write;
    struct burst read[STATE_READS];
    uint64_t masks[3]; /* on the last record's clock and the two before */
    struct bank bank[STATE_BANKS];
};

/* The state that the words are read as, whatever they are: a kind of 0 is the
 * first case, 1 the second, any other the last; a number too large for its 8 or
 * 16 bits is the largest; a number that the case does not use is passed over. */
void read_words(const uint64_t words[STATE_WORDS], struct state *s);

/* The words of a state. A number that a case does not use is 0. */
void write_words(const struct state *s, uint64_t words[STATE_WORDS]);

#endif
