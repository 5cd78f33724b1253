/* The proved judge against the plain judge on long clean traces, with and
 * without beats.
 *
 *   bench                           records per second of each, in one run
 *   bench TRACE JUDGE RECORDS TIMES that judge so often on that trace, for
 *                                   whoever counts instructions from outside
 *
 * TRACE is 0 to 2 and JUDGE 0 to 3, in the order that is printed. */
#define _POSIX_C_SOURCE 199309L
#include "cases.h"
#include "plain.h"
#include "proved.h"
#include "workload.h"

#include <stdlib.h>
#include <string.h>
#include <time.h>

enum { RECORDS = 65535, JUDGES = 4, ROUNDS = 15 };

struct bench {
    uint8_t trace[WORKLOAD_ROOM];
    size_t trace_len;
    uint8_t page[JUDGES][16384];
    uint64_t beats[JUDGES][2 * RECORDS];
};

struct judge {
    const char *name;
    judge_function *judge;
    bool beats;
};

/* A proved judge is followed by the plain one that it is measured by. */
static const struct judge judges[JUDGES] = {
    {"proved, beats", proved_judge, true},
    {"plain, beats", plain_judge, true},
    {"proved, no beats", proved_judge_alone, false},
    {"plain, no beats", plain_judge, false}
};

static uint64_t run(struct bench *b, unsigned j)
{
    return judges[j].judge(b->trace, b->trace_len, b->page[j], sizeof b->page[j],
                           judges[j].beats ? b->beats[j] : NULL,
                           judges[j].beats ? 2 * RECORDS : 0, workload_table);
}

/* A measurement of judges that do not agree, or that stop early, says nothing. */
static void check(struct bench *b, size_t records)
{
    bool same = true;
    memset(b->page, 0, sizeof b->page);
    memset(b->beats, 0, sizeof b->beats);
    for (unsigned j = 0; j < JUDGES; j++) {
        same = same && run(b, j) == (uint64_t)records << 16;
        same = same && memcmp(b->page[j], b->page[0], sizeof b->page[j]) == 0;
    }
    if (same && memcmp(b->beats[0], b->beats[1], sizeof b->beats[0]) == 0)
        return;
    fprintf(stderr, "bench: the trace is not clean, or the judges differ\n");
    exit(1);
}

static double now(void)
{
    struct timespec t;
    clock_gettime(CLOCK_MONOTONIC, &t);
    return (double)t.tv_sec + (double)t.tv_nsec / 1e9;
}

/* The least time of each, the judges taking turns. */
static void time_judges(struct bench *b, double seconds[JUDGES])
{
    for (unsigned round = 0; round < ROUNDS; round++)
        for (unsigned j = 0; j < JUDGES; j++) {
            double start = now();
            run(b, j);
            double took = now() - start;
            if (round == 0 || took < seconds[j])
                seconds[j] = took;
        }
}

static void print_times(const double seconds[JUDGES], enum workload w)
{
    for (unsigned j = 0; j < JUDGES; j++) {
        printf("%-19s %-16s %14.0f", workload_name(w), judges[j].name, RECORDS / seconds[j]);
        if (j % 2 == 0)
            printf(" %11.2f", seconds[j] / seconds[j + 1]);
        printf("\n");
    }
}

static void time_all(struct bench *b)
{
    double seconds[JUDGES];
    printf("%-19s %-16s %14s %11s\n", "trace", "judge", "records/second", "time/plain");
    for (enum workload w = 0; w < WORKLOADS; w++) {
        b->trace_len = make_workload(w, RECORDS, b->trace);
        check(b, RECORDS);
        time_judges(b, seconds);
        print_times(seconds, w);
    }
}

static bool read_word(const char *word, unsigned long most, unsigned long *number)
{
    char *end;
    *number = strtoul(word, &end, 10);
    return *end == '\0' && *number <= most;
}

int main(int argc, char **argv)
{
    static struct bench b;
    unsigned long w, j, records, times;
    if (argc == 1) {
        time_all(&b);
        return 0;
    }
    if (argc != 5 || !read_word(argv[1], WORKLOADS - 1, &w) ||
        !read_word(argv[2], JUDGES - 1, &j) || !read_word(argv[3], RECORDS, &records) ||
        !read_word(argv[4], 1000000, &times)) {
        fprintf(stderr, "usage: bench [TRACE JUDGE RECORDS TIMES]\n");
        return 2;
    }
    b.trace_len = make_workload((enum workload)w, records, b.trace);
    check(&b, records);
    for (; times > 0; times--)
        run(&b, (unsigned)j);
    return 0;
}
