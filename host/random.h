/* Random numbers from a seed (splitmix64), the same on every machine. No two of
 * them are drawn in the arguments of one call or on both sides of one assignment:
 * C leaves open which comes first, and a seed would be another case elsewhere. */
#ifndef RANDOM_H
#define RANDOM_H

#include <stdbool.h>
#include <stdint.h>

struct random {
    uint64_t state;
};

uint64_t random_word(struct random *r);

/* 0 to count - 1; count is above 0 and below 2^32. */
uint64_t random_below(struct random *r, uint64_t count);

/* low to high, both included. */
uint64_t random_between(struct random *r, uint64_t low, uint64_t high);

/* True so many times in a thousand. */
bool random_chance(struct random *r, uint64_t in_thousand);

#endif
