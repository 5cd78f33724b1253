/* What document 01's program makes of a trace. */
#include "program.h"

#include "../include/hawsehole.h"

#include <inttypes.h>
#include <string.h>

void lend_as_program(struct test_case *c)
{
    static const uint64_t grade[2][13] = {{HAWSEHOLE_GRADE_13E}, {HAWSEHOLE_GRADE_133}};
    bool first = c->trace_len >= 16 && c->trace[6] == 1; /* no other is judged but 2 */
    memcpy(c->table, grade[first ? 0 : 1], sizeof c->table);
    memset(c->page, 0, sizeof c->page);
    c->page_len = 16384;
    c->beats_len = 2 * (c->trace_len / 16);
}

/* "W or R, record, clock, bank, row, column in decimal, lanes as two hex digits" */
size_t beat_line(char line[LINE_ROOM], size_t record, const uint64_t beat[2])
{
    int length = snprintf(line, LINE_ROOM,
                          "%c %zu %" PRIu64 " %" PRIu64 " %" PRIu64 " %" PRIu64 " %02" PRIx64 "\n",
                          beat[0] >> 48 == 2 ? 'W' : 'R', record, beat[1], beat[0] >> 40 & 0xFF,
                          beat[0] >> 24 & 0xFFFF, beat[0] >> 8 & 0xFFFF, beat[0] & 0xFF);
    return (size_t)length;
}

void print_lines(FILE *to, const struct outcome *out)
{
    char line[LINE_ROOM];
    size_t taken = records_taken(out->answer);
    for (size_t k = 0; k < taken; k++)
        if (out->beats[2 * k] != 0)
            fwrite(line, 1, beat_line(line, k, out->beats + 2 * k), to);
    if (answer_number(out->answer) == 0)
        fprintf(to, "OK %zu\n", taken);
    else
        fprintf(to, "REFUSED %zu %u %u\n", taken, answer_number(out->answer),
                answer_interval(out->answer));
}
