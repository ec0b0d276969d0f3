/* Tries the table check, as C firmware links it, on lawful, short, long, damaged
 * and random tables. Expected answers are written out, or come from `expected`,
 * a second implementation that shares nothing with the proved one.
 */
#include <stdio.h>
#include <stdlib.h>
#include <string.h>

#include "station_table.h"

enum { HEADER = 6, ROW = 11, MOST_TASKS = 384, MOST_BYTES = HEADER + ROW * 511 };

static unsigned long tried, failed, seen[9];

/* ---- a second implementation ---- */

/* Reads fields one after the other. */
struct reader {
    const uint8_t *next;
    unsigned have;
    uint64_t bits;
};

static uint32_t take(struct reader *in, unsigned width)
{
    while (in->have < width) {
        in->bits = in->bits << 8 | *in->next++;
        in->have += 8;
    }
    in->have -= width;
    uint32_t value = (uint32_t)(in->bits >> in->have & ((1ull << width) - 1));
    in->bits &= (1ull << in->have) - 1;
    return value;
}

struct row {
    uint32_t core, start, end, claim, inputs;
};

static int ends_by(const struct row *rows, unsigned tasks, uint32_t core, uint32_t time)
{
    for (unsigned t = 0; t < tasks; t++)
        if (rows[t].core == core && rows[t].end <= time)
            return 1;
    return 0;
}

static int32_t expected(const uint8_t *bytes, size_t length)
{
    static struct row rows[MOST_TASKS];
    if (length < HEADER || bytes[0] != 87)
        return -1;
    struct reader in = {bytes + 1, 0, 0};
    unsigned cores = take(&in, 3) + 1;
    unsigned tasks = take(&in, 9);
    uint32_t ticks = take(&in, 28);
    if (tasks < 1 || tasks > MOST_TASKS)
        return -2;
    if (length != HEADER + ROW * (size_t)tasks)
        return -3;
    for (unsigned t = 0; t < tasks; t++) {
        struct row *r = &rows[t];
        r->core = take(&in, 3);
        r->start = take(&in, 28);
        r->end = take(&in, 28);
        r->claim = take(&in, 21);
        r->inputs = take(&in, 8);
    }
    for (unsigned t = 0; t < tasks; t++) {
        const struct row *r = &rows[t];
        if (r->core >= cores)
            return -4;
        if (r->start >= r->end || r->end > ticks)
            return -5;
        for (unsigned u = t; u-- > 0;)
            if (rows[u].core == r->core) {
                if (r->start < rows[u].end)
                    return -6;
                break;
            }
    }
    for (unsigned t = 0; t < tasks; t++)
        for (uint32_t k = 0; k < 8; k++)
            if (rows[t].inputs >> k & 1)
                if (k == rows[t].core || k >= cores || !ends_by(rows, tasks, k, rows[t].start))
                    return -7;
    return (int32_t)tasks;
}

/* ---- tables ---- */

/* Writes fields one after the other. */
struct writer {
    uint8_t *bytes;
    size_t bit;
};

static void put(struct writer *out, unsigned width, uint32_t value)
{
    while (width-- > 0) {
        if (value >> width & 1)
            out->bytes[out->bit / 8] |= (uint8_t)(0x80 >> out->bit % 8);
        out->bit++;
    }
}

static size_t make(uint8_t *bytes, unsigned cores, unsigned tasks, uint32_t ticks, const struct row *rows)
{
    struct writer out = {bytes, 0};
    memset(bytes, 0, MOST_BYTES);
    put(&out, 8, 87);
    put(&out, 3, cores - 1);
    put(&out, 9, tasks);
    put(&out, 28, ticks);
    for (unsigned t = 0; t < tasks; t++) {
        put(&out, 3, rows[t].core);
        put(&out, 28, rows[t].start);
        put(&out, 28, rows[t].end);
        put(&out, 21, rows[t].claim);
        put(&out, 8, rows[t].inputs);
    }
    return out.bit / 8;
}

static const struct row example[] = {
    {0, 0, 40, 10, 0}, {0, 40, 50, 10, 0}, {0, 50, 55, 10, 0}, {0, 55, 70, 10, 0},
    {1, 0, 40, 10, 0}, {1, 50, 60, 10, 0}, {1, 60, 70, 10, 0}, {1, 70, 80, 10, 0},
    {2, 0, 40, 10, 0}, {2, 40, 60, 10, 0},
};

/* ---- what is tried ---- */

static void answers(const char *what, const uint8_t *bytes, size_t length, int32_t want)
{
    int32_t got = station_table_check(bytes, length);
    tried++;
    seen[got > 0 ? 0 : got < -7 || got == 0 ? 8 : -got]++;
    if (got != want) {
        failed++;
        fprintf(stderr, "%s (%zu bytes): got %d, want %d\n", what, length, (int)got, (int)want);
    }
}

/* The same bytes in a place of just their size, so that a tool such as valgrind sees a read past them. */
static void agrees(const char *what, const uint8_t *bytes, size_t length)
{
    uint8_t *copy = malloc(length ? length : 1);
    if (!copy)
        exit(2);
    memcpy(copy, bytes, length);
    answers(what, copy, length, expected(bytes, length));
    free(copy);
}

static uint64_t state = 88172645463325252ull;

static uint32_t random_below(uint32_t n)
{
    state ^= state << 13;
    state ^= state >> 7;
    state ^= state << 17;
    return (uint32_t)((state >> 16) % n);
}

/* Rows in order on their cores, with data bits that mostly hold: a lawful table, or nearly one. */
static size_t random_table(uint8_t *bytes)
{
    static struct row rows[511];
    uint32_t free_from[8] = {0};
    unsigned cores = 1 + random_below(8);
    unsigned tasks = random_below(20) ? 1 + random_below(12) : random_below(512);
    uint32_t ticks = 0;
    for (unsigned t = 0; t < tasks; t++) {
        struct row *r = &rows[t];
        r->core = random_below(cores);
        r->start = free_from[r->core] + random_below(30);
        r->end = r->start + 1 + random_below(30);
        r->claim = random_below(1u << 21);
        r->inputs = 0;
        for (uint32_t k = 0; k < cores; k++)
            if (k != r->core && ends_by(rows, t, k, r->start) && random_below(2))
                r->inputs |= 1u << k;
        free_from[r->core] = r->end;
        if (r->end > ticks)
            ticks = r->end;
    }
    if (tasks > 0 && random_below(2)) {
        struct row *r = &rows[random_below(tasks)];
        switch (random_below(5)) {
        case 0: r->core = random_below(8); break;
        case 1: r->start += random_below(3); break;
        case 2: r->start -= r->start > 0; break;
        case 3: r->end -= random_below(3) % (r->end + 1); break;
        default: r->inputs |= 1u << random_below(8);
        }
    }
    if (!random_below(8))
        ticks -= ticks > 0;
    return make(bytes, cores, tasks, ticks, rows);
}

int main(void)
{
    static uint8_t bytes[MOST_BYTES + 1];
    static struct row many[511];
    static const uint8_t header[] = {0x57, 0x40, 0xA0, 0x00, 0x00, 0x50};
    static const uint8_t row_6[] = {0x20, 0x00, 0x00, 0x78, 0x00, 0x00, 0x08, 0xC0, 0x00, 0x0A, 0x00};

    size_t length = make(bytes, 3, 10, 80, example);
    if (length != 116 || memcmp(bytes, header, sizeof header) || memcmp(bytes + HEADER + ROW * 6, row_6, sizeof row_6)) {
        fprintf(stderr, "the test writes other bytes than the format says\n");
        return 1;
    }
    answers("the example", bytes, length, 10);
    for (size_t n = 0; n < length; n++)
        answers("the example, cut short", bytes, n, n < HEADER ? -1 : -3);
    answers("the example and a byte", bytes, length + 1, -3);
    for (size_t bit = 0; bit < 8 * length; bit++) {
        bytes[bit / 8] ^= (uint8_t)(0x80 >> bit % 8);
        agrees("the example with one bit turned", bytes, length);
        bytes[bit / 8] ^= (uint8_t)(0x80 >> bit % 8);
    }

    for (unsigned t = 0; t < 511; t++)
        many[t] = (struct row){0, t, t + 1, 0, 0};
    length = make(bytes, 1, 384, 384, many);
    answers("384 tasks", bytes, length, 384);
    length = make(bytes, 1, 385, 385, many);
    answers("385 tasks", bytes, length, -2);
    length = make(bytes, 1, 0, 1, many);
    answers("no task", bytes, length, -2);

    struct row pair[] = {{0, 0, 40, 0, 0}, {0, 40, 50, 0, 0}, {1, 40, 50, 0, 1}};
    answers("a start at the end before it", bytes, make(bytes, 2, 3, 50, pair), 3);
    pair[1].start = 39;
    answers("a start one tick before it", bytes, make(bytes, 2, 3, 50, pair), -6);
    pair[1].start = 50;
    answers("no tick between start and end", bytes, make(bytes, 2, 3, 50, pair), -5);
    pair[1].start = 40;
    answers("an end past the frame", bytes, make(bytes, 2, 3, 49, pair), -5);
    pair[2].start = 39;
    answers("data that come too late", bytes, make(bytes, 2, 3, 50, pair), -7);
    pair[2].start = 40;
    pair[2].inputs = 2;
    answers("data of its own core", bytes, make(bytes, 2, 3, 50, pair), -7);
    pair[2].inputs = 4;
    answers("data of a core that is not there", bytes, make(bytes, 2, 3, 50, pair), -7);
    pair[2].core = 2;
    answers("a core that is not there", bytes, make(bytes, 2, 3, 50, pair), -4);

    for (unsigned n = 0; n < 200000; n++) {
        length = random_table(bytes);
        agrees("a made table", bytes, length);
    }
    for (unsigned n = 0; n < 200000; n++) {
        length = random_below(64);
        for (size_t i = 0; i < length; i++)
            bytes[i] = (uint8_t)random_below(256);
        if (length > 0 && random_below(4))
            bytes[0] = 87;
        agrees("random bytes", bytes, length);
    }

    for (unsigned number = 0; number <= 7; number++)
        if (seen[number] < 10) {
            failed++;
            fprintf(stderr, "answer %u was hardly tried: %lu times\n", number, seen[number]);
        }
    printf("table check from C: %lu tables tried, %lu accepted, %lu wrong\n", tried, seen[0], failed);
    return failed != 0;
}
