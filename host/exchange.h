/* The proved judge in a process of its own, for machines that only emulate it.
 *
 * Cases go to the worker in batches. They lie in a file that both have open; a
 * byte on a pipe each way, the number of a batch, says that it is ready and that
 * it is judged. With two batches one is made while the other is judged.
 *
 * This side maps the file. The worker reads and writes it: qemu puts a barrier
 * at each access to memory of a process that maps shared memory, and the judge
 * then takes half as long again. */
#ifndef EXCHANGE_H
#define EXCHANGE_H

#include "cases.h"

enum {
    BATCHES = 2,
    BATCH_CASES = 16, /* many to a wake-up, and few enough for the cache */
    WORKER_FILE = 3   /* the descriptor of the file in the worker */
};

/* A case, and what the proved judge leaves of it with beats and without: lent
 * by this side, judged by the worker. */
struct slot {
    struct test_case c;
    struct outcome with_beats;
    struct outcome alone;
};

struct batch {
    uint64_t count;
    struct slot slot[BATCH_CASES];
};

/* Both sides are little-endian and lay the fields out with no gap. */
typedef char case_is_laid_out[sizeof(struct test_case) == 16 * 8 + 16448 + 65536 ? 1 : -1];
typedef char outcome_is_laid_out[sizeof(struct outcome) == 8 + 16448 + 8200 * 8 ? 1 : -1];
typedef char batch_is_laid_out[sizeof(struct batch) == 8 + 16 * 246224 ? 1 : -1];

/* Starts the worker, a command and its arguments with NULL last. Gives the
 * batches; NULL, with the reason on standard error, if that fails. */
struct batch *start_worker(char *const command[]);

/* Hands the batch of this number to the worker; waits until it is judged. False
 * if there is no worker any more. */
bool give_batch(size_t number);
bool take_batch(size_t number);

/* Waits for the worker's end. False if it failed. */
bool end_worker(void);

#endif
