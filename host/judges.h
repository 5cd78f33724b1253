/* All judges at hand, and holding them together on a case. */
#ifndef JUDGES_H
#define JUDGES_H

#include "cases.h"

struct judge {
    const char *name;
    judge_function *judge;
    bool beats; /* false: it knows no beats, and must leave them as they were */
};

/* The second program first. Built with C_JUDGES_ONLY the proved judge is not
 * among them, and the machine need not run x86-64 code. */
extern const struct judge judges[];
extern const size_t judges_count;

/* Runs the case through every judge; true if each left what the first left, and
 * the first kept its hands off what 01 says it leaves alone. A difference is
 * printed under the label. `first` is what the first judge left. */
bool judges_agree(const struct test_case *c, const char *label, struct outcome *first);

/* True if the judge of this name left in `other` what the first judge left. A
 * difference is printed under the label. */
bool outcomes_agree(const struct test_case *c, const char *label, const struct outcome *first,
                    const struct outcome *other, const char *name, bool beats);

#endif
