/* All judges at hand, and holding them together on a case. */
#include "judges.h"

#include "plain.h"
#include "second.h"

#include <inttypes.h>

#ifndef C_JUDGES_ONLY
#include "proved.h"
#endif

const struct judge judges[] = {
    {"second", second_judge, true},
    {"plain", plain_judge, true},
#ifndef C_JUDGES_ONLY
    {"proved", proved_judge, true},
    {"proved, no beats", proved_judge_alone, false},
#endif
};

const size_t judges_count = sizeof judges / sizeof judges[0];

static void print_answer(const char *name, uint64_t answer)
{
    printf(", %s: number %u record %" PRIu64 " interval %u", name, answer_number(answer),
           answer_record(answer), answer_interval(answer));
}

bool outcomes_agree(const struct test_case *c, const char *label, const struct outcome *first,
                    const struct outcome *other, const char *name, bool beats)
{
    const char *what = difference(c, first, other, beats);
    if (what == NULL)
        return true;
    printf("%s: %s differs", label, what);
    print_answer(judges[0].name, first->answer);
    print_answer(name, other->answer);
    printf("\n");
    return false;
}

bool judges_agree(const struct test_case *c, const char *label, struct outcome *first)
{
    static struct outcome other;
    bool agree = true;
    run_case(judges[0].judge, c, first);
    if (!kept_alone(c, first)) {
        printf("%s: %s changed what it must leave\n", label, judges[0].name);
        agree = false;
    }
    for (size_t j = 1; j < judges_count; j++) {
        run_case(judges[j].judge, c, &other);
        if (!outcomes_agree(c, label, first, &other, judges[j].name, judges[j].beats))
            agree = false;
    }
    return agree;
}
