/* Deep random cases from a seed. */
#ifndef GENERATE_H
#define GENERATE_H

#include "cases.h"

/* The case of this seed: table, page, trace, and the room for beats. Most cases
 * do start-up right, walk on legal records that stand on or near their earliest
 * clock, and aim their last record at one of document 01's numbers. */
void generate(uint64_t seed, struct test_case *c);

#endif
