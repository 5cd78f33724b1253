/* Runs files of the corpus through every judge and holds them equal.
 *
 *   replay FILE...
 *
 * Prints each difference, what was reached, and exits 1 if there was one. */
#include "../judges.h"
#include "input.h"

int main(int argc, char **argv)
{
    static struct test_case c;
    static struct outcome first;
    static struct case_counts counts;
    int differ = 0;
    for (int i = 1; i < argc; i++) {
        if (!read_input(argv[i], &c)) {
            printf("%s: cannot be read\n", argv[i]);
            differ++;
            continue;
        }
        differ += !judges_agree(&c, argv[i], &first);
        count_case(&counts, &c, &first);
    }
    print_counts(&counts, stdout);
    printf("%d inputs, %zu judges, %d differ\n", argc - 1, judges_count, differ);
    return differ == 0 ? 0 : 1;
}
