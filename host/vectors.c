/* Holds every judge to a file of cases with known answers, one to a line:
 *
 *   thirteen table numbers; the page's length and its first 64 bytes in hex
 *   (`-` for none), repeated to that length; the trace in hex (`-` for none);
 *   number, record, interval; count of beats, FNV-1a of the beat lines as the
 *   program prints them, FNV-1a of the page afterwards.
 *
 * Prints a line for each difference and how many there are last. */
#include "judges.h"
#include "program.h"

#include <inttypes.h>
#include <stdlib.h>
#include <string.h>

enum { VECTOR_ROOM = 3 * CASE_TRACE_ROOM };

struct expected {
    uint64_t number;
    uint64_t record;
    uint64_t interval;
    uint64_t beats;
    uint64_t beat_lines;
    uint64_t page;
};

static const uint64_t FNV_START = 0xCBF29CE484222325;

static uint64_t fnv1a(uint64_t hash, const uint8_t *bytes, size_t count)
{
    for (size_t i = 0; i < count; i++)
        hash = (hash ^ bytes[i]) * 0x100000001B3;
    return hash;
}

/* ---- Reading a line ---- */

static int hex_digit(char c)
{
    if (c >= '0' && c <= '9')
        return c - '0';
    if (c >= 'a' && c <= 'f')
        return c - 'a' + 10;
    return -1;
}

/* The bytes of a word in hex; false if it is none or has no room. */
static bool read_hex(const char *word, uint8_t *bytes, size_t room, size_t *count)
{
    *count = 0;
    if (word == NULL)
        return false;
    if (strcmp(word, "-") == 0)
        return true;
    for (; word[0] != '\0'; word += 2) {
        int high = hex_digit(word[0]);
        int low = high < 0 ? -1 : hex_digit(word[1]);
        if (low < 0 || *count == room)
            return false;
        bytes[(*count)++] = (uint8_t)(high * 16 + low);
    }
    return true;
}

static bool read_number(uint64_t *number, int base)
{
    char *end;
    const char *word = strtok(NULL, " \n");
    if (word == NULL)
        return false;
    *number = strtoull(word, &end, base);
    return *end == '\0';
}

static bool read_page(struct test_case *c)
{
    uint8_t bytes[64] = {0};
    uint64_t page_len;
    size_t count;
    if (!read_number(&page_len, 10) || page_len > CASE_PAGE_ROOM)
        return false;
    c->page_len = (size_t)page_len;
    if (!read_hex(strtok(NULL, " \n"), bytes, sizeof bytes, &count))
        return false;
    fill_page(c, bytes, count == 0 ? sizeof bytes : count);
    return true;
}

static bool read_case(char *line, struct test_case *c, struct expected *e)
{
    const char *first = strtok(line, " \n");
    size_t trace_len;
    if (first == NULL)
        return false;
    c->table[0] = strtoull(first, NULL, 10);
    for (size_t i = 1; i < 13; i++)
        if (!read_number(&c->table[i], 10))
            return false;
    if (!read_page(c) || !read_hex(strtok(NULL, " \n"), c->trace, sizeof c->trace, &trace_len))
        return false;
    c->trace_len = trace_len;
    c->beats_len = 2 * (c->trace_len / 16);
    return read_number(&e->number, 10) && read_number(&e->record, 10) &&
           read_number(&e->interval, 10) && read_number(&e->beats, 10) &&
           read_number(&e->beat_lines, 16) && read_number(&e->page, 16);
}

/* ---- Holding a judge to it ---- */

static struct expected summary(const struct test_case *c, const struct outcome *out)
{
    struct expected s = {0, 0, 0, 0, FNV_START, 0};
    char line[LINE_ROOM];
    size_t taken = records_taken(out->answer);
    s.number = answer_number(out->answer);
    s.record = answer_record(out->answer);
    s.interval = answer_interval(out->answer);
    for (size_t k = 0; k < taken && 2 * k + 1 < c->beats_len; k++) {
        if (out->beats[2 * k] == 0)
            continue;
        s.beats++;
        size_t length = beat_line(line, k, out->beats + 2 * k);
        s.beat_lines = fnv1a(s.beat_lines, (const uint8_t *)line, length);
    }
    s.page = fnv1a(FNV_START, out->page, c->page_len);
    return s;
}

/* What a judge that knows no beats cannot tell is taken as expected. */
static bool hold(const struct judge *judge, size_t line, const struct test_case *c,
                 const struct expected *e)
{
    static struct outcome out;
    run_case(judge->judge, c, &out);
    struct expected s = summary(c, &out);
    if (!judge->beats) {
        s.beats = e->beats;
        s.beat_lines = e->beat_lines;
    }
    if (memcmp(&s, e, sizeof s) == 0 && answer_record(out.answer) == out.answer >> 16)
        return true;
    printf("line %zu, %s: number %" PRIu64 " record %" PRIu64 " interval %" PRIu64
           " beats %" PRIu64 " %016" PRIx64 " page %016" PRIx64 "; expected %" PRIu64 " %" PRIu64
           " %" PRIu64 " %" PRIu64 " %016" PRIx64 " %016" PRIx64 "\n",
           line, judge->name, s.number, s.record, s.interval, s.beats, s.beat_lines, s.page,
           e->number, e->record, e->interval, e->beats, e->beat_lines, e->page);
    return false;
}

static bool hold_all(size_t line, const struct test_case *c, const struct expected *e)
{
    bool held = true;
    for (size_t j = 0; j < judges_count; j++)
        held = hold(&judges[j], line, c, e) && held;
    return held;
}

int main(int argc, char **argv)
{
    static char line[VECTOR_ROOM];
    static struct test_case c;
    struct expected e;
    size_t cases = 0, differ = 0;
    FILE *file = argc == 2 ? fopen(argv[1], "r") : NULL;
    if (file == NULL) {
        fprintf(stderr, "usage: vectors FILE\n");
        return 2;
    }
    while (fgets(line, sizeof line, file) != NULL) {
        cases++;
        if (!read_case(line, &c, &e)) {
            printf("line %zu: not a case\n", cases);
            differ++;
            continue;
        }
        differ += !hold_all(cases, &c, &e);
    }
    fclose(file);
    printf("%zu cases, %zu judges, %zu differ\n", cases, judges_count, differ);
    return differ == 0 ? 0 : 1;
}
