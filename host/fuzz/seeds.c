/* Writes inputs to start a fuzzer with.
 *
 *   seeds FOLDER [TRACE...]
 *
 * One for each trace, lent what the program lends it, and generated ones: the
 * shortest of some for each number and each interval. */
#include "../generate.h"
#include "../judges.h"
#include "../program.h"
#include "input.h"

enum { TRIED = 20000 };

static bool write_input(const char *folder, const char *name, const struct test_case *c)
{
    static uint8_t bytes[INPUT_ROOM];
    char path[1024];
    size_t count = input_from_case(c, bytes);
    snprintf(path, sizeof path, "%s/%s", folder, name);
    FILE *file = fopen(path, "wb");
    if (file == NULL)
        return false;
    bool whole = fwrite(bytes, 1, count, file) == count;
    return fclose(file) == 0 && whole;
}

static bool write_generated(const char *folder)
{
    static struct test_case c;
    static struct outcome out;
    static size_t least[CASE_NUMBERS][CASE_INTERVALS];
    bool written = true;
    for (uint64_t seed = 1; seed <= TRIED; seed++) {
        generate(seed, &c);
        run_case(judges[0].judge, &c, &out);
        uint32_t number = answer_number(out.answer) % CASE_NUMBERS;
        uint32_t interval = answer_interval(out.answer) % CASE_INTERVALS;
        if (least[number][interval] != 0 && least[number][interval] <= c.trace_len)
            continue;
        char name[32];
        least[number][interval] = c.trace_len;
        snprintf(name, sizeof name, "number-%u-%u", number, interval);
        written = write_input(folder, name, &c) && written;
    }
    return written;
}

static bool read_trace(const char *name, struct test_case *c)
{
    FILE *file = fopen(name, "rb");
    if (file == NULL)
        return false;
    c->trace_len = fread(c->trace, 1, sizeof c->trace, file);
    fclose(file);
    lend_as_program(c);
    return true;
}

int main(int argc, char **argv)
{
    static struct test_case c;
    if (argc < 2) {
        fprintf(stderr, "usage: seeds FOLDER [TRACE...]\n");
        return 2;
    }
    bool written = write_generated(argv[1]);
    for (int i = 2; i < argc; i++) {
        char name[32];
        snprintf(name, sizeof name, "trace-%d", i - 1);
        written = read_trace(argv[i], &c) && write_input(argv[1], name, &c) && written;
    }
    if (!written)
        fprintf(stderr, "seeds: some file could not be read or written\n");
    return written ? 0 : 1;
}
