/* A case as a string of bytes that a fuzzer may change anywhere. */
#include "input.h"

#include <string.h>

enum { FLAGS = 0, TABLE = 1, PAGE_LEN = 53, BEATS_LEN = 55, MENDED = 1 };

enum { BEATS_MAX = 2 * (CASE_TRACE_ROOM / 16) };

static uint64_t load(const uint8_t *bytes, unsigned count)
{
    uint64_t number = 0;
    for (unsigned i = 0; i < count; i++)
        number = number << 8 | bytes[i];
    return number;
}

static void store(uint8_t *bytes, unsigned count, uint64_t number)
{
    for (unsigned i = count; i > 0; i--, number >>= 8)
        bytes[i - 1] = (uint8_t)number;
}

static bool whole(const struct test_case *c)
{
    return c->trace_len >= 16 && c->trace_len == 16 + 16 * load(c->trace + 4, 2);
}

/* Whole records, and the count in the header that says so: else whatever changes
 * the length ends in number 1, and no record is looked at. */
static void mend(struct test_case *c)
{
    if (c->trace_len < 16)
        return;
    c->trace_len -= c->trace_len % 16;
    store(c->trace + 4, 2, c->trace_len / 16 - 1);
}

/* A page that no store leaves as it was by chance. */
static void lend_page(struct test_case *c, uint64_t page_len)
{
    uint8_t bytes[251];
    for (unsigned i = 0; i < sizeof bytes; i++)
        bytes[i] = (uint8_t)(i + 1);
    fill_page(c, bytes, sizeof bytes);
    c->page_len = (size_t)(page_len % (CASE_PAGE_ROOM + 1));
}

void case_from_input(const uint8_t *bytes, size_t count, struct test_case *c)
{
    uint8_t head[INPUT_HEAD] = {0};
    memcpy(head, bytes, count < INPUT_HEAD ? count : INPUT_HEAD);
    c->trace_len = count < INPUT_HEAD ? 0 : count - INPUT_HEAD;
    if (c->trace_len > CASE_TRACE_ROOM)
        c->trace_len = CASE_TRACE_ROOM;
    memcpy(c->trace, bytes + (count - c->trace_len), c->trace_len);
    for (unsigned i = 0; i < 13; i++)
        c->table[i] = load(head + TABLE + 4 * i, 4);
    lend_page(c, load(head + PAGE_LEN, 2));
    c->beats_len = (size_t)(load(head + BEATS_LEN, 2) % (BEATS_MAX + 1));
    if ((head[FLAGS] & MENDED) != 0)
        mend(c);
}

bool read_input(const char *name, struct test_case *c)
{
    static uint8_t bytes[INPUT_ROOM];
    FILE *file = fopen(name, "rb");
    if (file == NULL)
        return false;
    size_t count = fread(bytes, 1, sizeof bytes, file);
    bool read = !ferror(file);
    fclose(file);
    case_from_input(bytes, count, c);
    return read;
}

size_t input_from_case(const struct test_case *c, uint8_t bytes[INPUT_ROOM])
{
    bytes[FLAGS] = whole(c) ? MENDED : 0;
    for (unsigned i = 0; i < 13; i++)
        store(bytes + TABLE + 4 * i, 4, c->table[i] > UINT32_MAX ? UINT32_MAX : c->table[i]);
    store(bytes + PAGE_LEN, 2, c->page_len);
    store(bytes + BEATS_LEN, 2, c->beats_len);
    memcpy(bytes + INPUT_HEAD, c->trace, c->trace_len);
    return INPUT_HEAD + c->trace_len;
}
