/* Long clean traces to measure judges with. */
#ifndef WORKLOAD_H
#define WORKLOAD_H

#include <stddef.h>
#include <stdint.h>

enum workload { BURST_WRITES, RANDOM_ACCESS, MOSTLY_NOP, WORKLOADS };

enum { WORKLOAD_ROOM = 16 + 16 * 65535 };

extern const uint64_t workload_table[13]; /* grade -133 */

const char *workload_name(enum workload w);

/* Writes a trace of so many records, clean under the table above; its length. */
size_t make_workload(enum workload w, size_t records, uint8_t trace[WORKLOAD_ROOM]);

#endif
