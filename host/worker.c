/* The proved judge's side of the exchange (exchange.h): judges each batch that
 * standard input names, and names it on standard output. Ends with its input;
 * exits 1 if the file or the output fails. */
#define _POSIX_C_SOURCE 200809L

#include "exchange.h"
#include "proved.h"

#include <unistd.h>

static bool fetch(void *to, size_t count, size_t from)
{
    return pread(WORKER_FILE, to, count, (off_t)from) == (ssize_t)count;
}

static bool store(const void *from, size_t count, size_t to)
{
    return pwrite(WORKER_FILE, from, count, (off_t)to) == (ssize_t)count;
}

/* Table, lengths and trace. The page is lent in the outcomes. */
static bool fetch_case(struct test_case *c, size_t from)
{
    return fetch(c, offsetof(struct test_case, page), from) &&
           fetch(c->trace, c->trace_len, from + offsetof(struct test_case, trace));
}

/* Judges into the outcome that stands there. */
static bool judge_at(judge_function *judge, const struct test_case *c, size_t place)
{
    static struct outcome out;
    if (!fetch(&out, watched_bytes(c), place))
        return false;
    judge_lent(judge, c, &out);
    return store(&out, watched_bytes(c), place);
}

static bool judge_slot(size_t place)
{
    static struct test_case c;
    return fetch_case(&c, place + offsetof(struct slot, c)) &&
           judge_at(proved_judge, &c, place + offsetof(struct slot, with_beats)) &&
           judge_at(proved_judge_alone, &c, place + offsetof(struct slot, alone));
}

static bool judge_batch(size_t number)
{
    size_t place = number * sizeof(struct batch);
    uint64_t count;
    if (!fetch(&count, sizeof count, place + offsetof(struct batch, count)))
        return false;
    for (size_t i = 0; i < count; i++)
        if (!judge_slot(place + offsetof(struct batch, slot) + i * sizeof(struct slot)))
            return false;
    return true;
}

int main(void)
{
    uint8_t number;
    while (read(STDIN_FILENO, &number, 1) == 1)
        if (!judge_batch(number) || write(STDOUT_FILENO, &number, 1) != 1)
            return 1;
    return 0;
}
