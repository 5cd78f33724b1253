/* A case as a string of bytes that a fuzzer may change anywhere:
 *
 *   1 byte    bit 0: the trace is mended, its count set to the whole records it has
 *   52 bytes  the table, thirteen numbers of 4 bytes
 *   2 bytes   the page's length, at most CASE_PAGE_ROOM
 *   2 bytes   the length of `beats` in words, at most what CASE_TRACE_ROOM needs
 *   the rest  the trace
 *
 * Numbers have the most significant byte first, and what is above its bound
 * counts from 0 again. Bytes that are missing are 0. */
#ifndef INPUT_H
#define INPUT_H

#include "../cases.h"

enum { INPUT_HEAD = 57, INPUT_ROOM = INPUT_HEAD + CASE_TRACE_ROOM };

/* A trace longer than CASE_TRACE_ROOM is cut off there. */
void case_from_input(const uint8_t *bytes, size_t count, struct test_case *c);

/* The case of an input in a file; false if it cannot be read. */
bool read_input(const char *name, struct test_case *c);

/* The input of a case, and its length. Table numbers that 4 bytes cannot hold
 * become the most that they can. */
size_t input_from_case(const struct test_case *c, uint8_t bytes[INPUT_ROOM]);

#endif
