/* Writes what document 01's program must print, by the second program.
 *
 *   printed FOLDER INPUT...
 *
 * For each input of the corpus its trace, as FOLDER/N.trace, and the lines that
 * the program must print for it, as FOLDER/N.printed. */
#include "../program.h"
#include "../second.h"
#include "input.h"

static FILE *open_in(const char *folder, int number, const char *kind)
{
    char path[1024];
    snprintf(path, sizeof path, "%s/%d.%s", folder, number, kind);
    return fopen(path, "wb");
}

static bool write_both(const char *folder, int number, const struct test_case *c)
{
    static struct outcome out;
    FILE *trace = open_in(folder, number, "trace");
    FILE *printed = open_in(folder, number, "printed");
    if (trace == NULL || printed == NULL)
        return false;
    bool whole = fwrite(c->trace, 1, c->trace_len, trace) == c->trace_len;
    run_case(second_judge, c, &out);
    print_lines(printed, &out);
    return fclose(trace) == 0 && fclose(printed) == 0 && whole;
}

int main(int argc, char **argv)
{
    static struct test_case c;
    for (int i = 2; i < argc; i++) {
        bool done = read_input(argv[i], &c);
        lend_as_program(&c);
        if (!done || !write_both(argv[1], i - 1, &c)) {
            fprintf(stderr, "printed: %s: cannot be read or written\n", argv[i]);
            return 1;
        }
    }
    return 0;
}
