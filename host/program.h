/* What document 01's program makes of a trace, for whoever holds it to that. */
#ifndef PROGRAM_H
#define PROGRAM_H

#include "cases.h"

enum { LINE_ROOM = 96 };

/* Lends the trace in the case what the program lends it: the table of its header's
 * grade, a page of zeros, and room for every beat. */
void lend_as_program(struct test_case *c);

/* The line of a reported beat, and its length. `beat` are its two words. */
size_t beat_line(char line[LINE_ROOM], size_t record, const uint64_t beat[2]);

/* A line for each reported beat, then OK or REFUSED. */
void print_lines(FILE *to, const struct outcome *out);

#endif
