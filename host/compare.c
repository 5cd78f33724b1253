/* Runs N generated cases, from a seed on, through every judge, and holds answer,
 * every beat word and every page byte equal.
 *
 *   compare N SEED [WORKER ARGUMENT...]
 *
 * The judges are those that this program links. With a worker (worker.c), a
 * command that runs it, they are also the proved judge there, with beats and
 * without.
 *
 * Exits 1 on a difference; with many cases also if a number of 1 to 7 or 10 to
 * 22 or an interval of 1 to 8 was never given; 2 if the worker fails.
 * `compare 1 SEED` runs the one case that a line of differences names. */
#include "exchange.h"
#include "generate.h"
#include "judges.h"

#include <inttypes.h>
#include <stdlib.h>
#include <time.h>

enum {
    COMPLETE_FROM = 20000, /* cases from which on every number must be given */
    PROGRESS_SECONDS = 5,
    LABEL_ROOM = 32
};

/* What the judges of this program made of a batch. */
struct made {
    uint64_t seed; /* of its first case */
    bool agree[BATCH_CASES];
    struct outcome first[BATCH_CASES];
};

struct run {
    uint64_t cases;
    uint64_t seed;
    bool worker;
    struct batch *batch; /* BATCHES of them, used in turn */
    struct made made[BATCHES];
    uint64_t differ;
    struct case_counts counts;
};

static const char *label(uint64_t seed)
{
    static char text[LABEL_ROOM];
    snprintf(text, sizeof text, "seed %" PRIu64, seed);
    return text;
}

/* Generates the batch that comes k-th, and runs the judges of this program on it. */
static void make_batch(struct run *r, uint64_t k)
{
    struct batch *b = &r->batch[k % BATCHES];
    struct made *m = &r->made[k % BATCHES];
    uint64_t left = r->cases - k * BATCH_CASES;
    b->count = left < BATCH_CASES ? left : BATCH_CASES;
    m->seed = r->seed + k * BATCH_CASES;
    for (size_t i = 0; i < b->count; i++) {
        struct slot *s = &b->slot[i];
        generate(m->seed + i, &s->c);
        if (r->worker) {
            lend_case(&s->c, &s->with_beats);
            lend_case(&s->c, &s->alone);
        }
        m->agree[i] = judges_agree(&s->c, label(m->seed + i), &m->first[i]);
    }
}

/* Holds what the worker left of a case to what the first judge left. */
static bool worker_agrees(const struct slot *s, uint64_t seed, const struct outcome *first)
{
    bool same = outcomes_agree(&s->c, label(seed), first, &s->with_beats, "proved", true);
    bool same_alone =
        outcomes_agree(&s->c, label(seed), first, &s->alone, "proved, no beats", false);
    return same && same_alone;
}

static void count_batch(struct run *r, uint64_t k)
{
    const struct batch *b = &r->batch[k % BATCHES];
    struct made *m = &r->made[k % BATCHES];
    for (size_t i = 0; i < b->count; i++) {
        if (r->worker && !worker_agrees(&b->slot[i], m->seed + i, &m->first[i]))
            m->agree[i] = false;
        r->differ += !m->agree[i];
        count_case(&r->counts, &b->slot[i].c, &m->first[i]);
    }
}

static void say_progress(const struct run *r, time_t start)
{
    static time_t said;
    time_t now = time(NULL);
    if (now - (said == 0 ? start : said) < PROGRESS_SECONDS)
        return;
    said = now;
    fprintf(stderr, "%" PRIu64 " of %" PRIu64 " cases, %" PRIu64 " differ, %.0f a second\n",
            r->counts.cases, r->cases, r->differ, (double)r->counts.cases / difftime(now, start));
}

/* Makes each batch while the worker judges the one before. False if the worker
 * fails. */
static bool compare_all(struct run *r)
{
    uint64_t batches = r->cases / BATCH_CASES + (r->cases % BATCH_CASES != 0);
    time_t start = time(NULL);
    for (uint64_t k = 0; k <= batches; k++) {
        if (k < batches) {
            make_batch(r, k);
            if (r->worker && !give_batch(k % BATCHES))
                return false;
        }
        if (k == 0)
            continue;
        if (r->worker && !take_batch((k - 1) % BATCHES))
            return false;
        count_batch(r, k - 1);
        say_progress(r, start);
    }
    return !r->worker || end_worker();
}

static int print_result(const struct run *r)
{
    print_counts(&r->counts, stdout);
    bool complete = r->cases < COMPLETE_FROM || counts_complete(&r->counts);
    if (!complete)
        printf("some number or interval was never given\n");
    printf("%" PRIu64 " cases from seed %" PRIu64 ", %zu judges, %" PRIu64 " differ\n", r->cases,
           r->seed, judges_count + (r->worker ? 2 : 0), r->differ);
    return r->differ == 0 && complete ? 0 : 1;
}

static bool read_number(const char *word, uint64_t *number)
{
    char *end;
    *number = strtoull(word, &end, 10);
    return end != word && *end == '\0';
}

int main(int argc, char **argv)
{
    static struct run r;
    if (argc < 3 || !read_number(argv[1], &r.cases) || !read_number(argv[2], &r.seed)) {
        fprintf(stderr, "usage: compare N SEED [WORKER ARGUMENT...]\n");
        return 2;
    }
    r.worker = argc > 3;
    r.batch = r.worker ? start_worker(argv + 3) : calloc(BATCHES, sizeof *r.batch);
    if (r.batch == NULL)
        return 2;
    if (!compare_all(&r)) {
        fprintf(stderr, "the worker failed in the %d cases from seed %" PRIu64 " on\n",
                BATCHES * BATCH_CASES, r.seed + r.counts.cases);
        return 2;
    }
    return print_result(&r);
}
