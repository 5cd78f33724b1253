/* Random numbers from a seed (splitmix64). */
#include "random.h"

uint64_t random_word(struct random *r)
{
    r->state += 0x9E3779B97F4A7C15;
    uint64_t z = r->state;
    z = (z ^ z >> 30) * 0xBF58476D1CE4E5B9;
    z = (z ^ z >> 27) * 0x94D049BB133111EB;
    return z ^ z >> 31;
}

uint64_t random_below(struct random *r, uint64_t count)
{
    return (random_word(r) >> 32) * count >> 32;
}

uint64_t random_between(struct random *r, uint64_t low, uint64_t high)
{
    return low + random_below(r, high - low + 1);
}

bool random_chance(struct random *r, uint64_t in_thousand)
{
    return random_below(r, 1000) < in_thousand;
}
