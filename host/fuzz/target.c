/* What AFL++ runs: the two C judges on a case cut out of its bytes. It aborts
 * where they differ. Built by afl-clang-fast, which knows the words in capitals. */
#include "../judges.h"
#include "input.h"

#include <stdlib.h>
#include <unistd.h>

__AFL_FUZZ_INIT();

int main(void)
{
    static struct test_case c;
    static struct outcome first;
    __AFL_INIT();
    const uint8_t *bytes = __AFL_FUZZ_TESTCASE_BUF;
    while (__AFL_LOOP(10000)) {
        case_from_input(bytes, (size_t)__AFL_FUZZ_TESTCASE_LEN, &c);
        if (!judges_agree(&c, "fuzz", &first))
            abort();
    }
    return 0;
}
