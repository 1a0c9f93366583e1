/* Times the archive's check beside the second implementation's and, with
 * HAVE_LIBCBOR, beside libcbor's tree reader and its stream decoder.
 *
 *     bench              the table of times
 *     bench rows|sides   how many rows and sides there are
 *     bench once R S     calls side S on row R, for counting instructions
 *
 * libcbor reads well-formedness only: it judges neither the subset nor the
 * shape of a command nor double keys. */

#include <stdint.h>
#include <stdio.h>
#include <stdlib.h>
#include <string.h>
#include <time.h>

#include "command.h"
#include "../tests/second.h"
#ifdef HAVE_LIBCBOR
#include <cbor.h>
#endif

#define ROUNDS 9
#define LEAST_NS 20e6 /* of one round of one side */
#define ROOM (1u << 12)

struct row {
    const char *what;
    unsigned arguments;
    uint32_t answer;
    size_t length;
    uint8_t bytes[ROOM];
};

/* ---- the rows ---- */

static void put(struct row *row, const void *bytes, size_t count)
{
    if (row->length + count > ROOM)
        abort();
    memcpy(row->bytes + row->length, bytes, count);
    row->length += count;
}

static void put_head(struct row *row, unsigned major, size_t argument)
{
    uint8_t head[3] = {(uint8_t)(major << 5), 0, 0};
    size_t width = 1;
    if (argument < 24) {
        head[0] |= (uint8_t)argument;
    } else if (argument < 256) {
        head[0] |= 24;
        head[1] = (uint8_t)argument;
        width = 2;
    } else {
        head[0] |= 25;
        head[1] = (uint8_t)(argument >> 8);
        head[2] = (uint8_t)argument;
        width = 3;
    }
    put(row, head, width);
}

/* The keys are distinct up to 1,000, and not in order: a reader that sorts
 * them has work to do. */
static void put_key(struct row *row, unsigned number)
{
    char key[12];
    snprintf(key, sizeof key, "k%03u", number * 101 % 1000);
    put_head(row, 2, 4);
    put(row, key, 4);
}

/* Name `set`, and the head of an args map. */
static void begin(struct row *row, const char *what, unsigned arguments, uint32_t answer)
{
    row->what = what;
    row->arguments = arguments;
    row->answer = answer;
    row->length = 0;
    put(row, "\xa2\x44name\x43set\x44" "args", 15);
    put_head(row, 5, arguments);
}

static void integers(struct row *row, const char *what, unsigned arguments)
{
    begin(row, what, arguments, 0);
    for (unsigned i = 0; i < arguments; i++) {
        put_key(row, i);
        put_head(row, 0, 24 + i % 200);
    }
}

static void strings(struct row *row, const char *what, unsigned arguments, size_t length)
{
    begin(row, what, arguments, 0);
    for (unsigned i = 0; i < arguments; i++) {
        put_key(row, i);
        put_head(row, 2, length);
        for (size_t j = 0; j < length; j++)
            put(row, "v", 1);
    }
}

static void without_args(struct row *row)
{
    row->what = "name alone";
    row->arguments = 0;
    row->answer = 0;
    row->length = 0;
    put(row, "\xa1\x44name\x43set", 10);
}

#define ROWS 8
static struct row rows[ROWS];

static void make_rows(void)
{
    integers(&rows[0], "no arguments", 0);
    integers(&rows[1], "integers", 26);
    integers(&rows[2], "integers", 283);
    strings(&rows[3], "byte strings", 2, 85);
    strings(&rows[4], "byte strings", 2, 984);
    integers(&rows[5], "last byte missing", 283);
    rows[5].length--;
    rows[5].answer = 24;
    integers(&rows[6], "last key as the first", 283);
    memcpy(rows[6].bytes + rows[6].length - 6, "k000", 4);
    rows[6].answer = 26;
    without_args(&rows[7]);
}

/* ---- the sides ---- */

static uint32_t check(const struct row *row)
{
    return command_check(row->bytes, row->length);
}

static uint32_t second(const struct row *row)
{
    return second_check(row->bytes, row->length);
}

#ifdef HAVE_LIBCBOR
static uint32_t load(const struct row *row)
{
    struct cbor_load_result result;
    cbor_item_t *item = cbor_load(row->bytes, row->length, &result);
    if (item != NULL)
        cbor_decref(&item);
    return (uint32_t)result.error.code;
}

static uint32_t stream(const struct row *row)
{
    size_t place = 0;
    while (place < row->length) {
        struct cbor_decoder_result result = cbor_stream_decode(
            row->bytes + place, row->length - place, &cbor_empty_callbacks, NULL);
        if (result.status != CBOR_DECODER_FINISHED)
            return 1;
        place += result.read;
    }
    return 0;
}
#endif

struct side {
    const char *name;
    uint32_t (*call)(const struct row *row);
};

static const struct side sides[] = {
    {"check", check},
    {"second", second},
#ifdef HAVE_LIBCBOR
    {"cbor_load", load},
    {"stream", stream},
#endif
};
#define SIDES (sizeof sides / sizeof sides[0])

/* Both checks must give the row's answer; libcbor must take what is good. */
static void verify(const struct row *row)
{
    for (size_t s = 0; s < SIDES; s++) {
        uint32_t answer = sides[s].call(row);
        int good = s < 2 ? answer == row->answer : row->answer != 0 || answer == 0;
        if (!good) {
            fprintf(stderr, "bench: %s answers %u on '%s', %zu bytes\n", sides[s].name, answer,
                    row->what, row->length);
            exit(1);
        }
    }
}

/* ---- the times ---- */

static volatile uint32_t sink;

static double time_loops(const struct side *side, const struct row *row, unsigned long loops)
{
    struct timespec start, end;
    clock_gettime(CLOCK_MONOTONIC, &start);
    for (unsigned long i = 0; i < loops; i++)
        sink = side->call(row);
    clock_gettime(CLOCK_MONOTONIC, &end);
    return (double)(end.tv_sec - start.tv_sec) * 1e9 + (double)(end.tv_nsec - start.tv_nsec);
}

static unsigned long calibrate(const struct side *side, const struct row *row)
{
    unsigned long loops = 1;
    while (time_loops(side, row, loops) < LEAST_NS)
        loops *= 2;
    return loops;
}

/* The best time of one call on each side. The rounds of the sides take
 * turns, so that a slow spell of the machine falls on all of them. */
static void measure(const struct row *row, double *best)
{
    unsigned long loops[SIDES];
    for (size_t s = 0; s < SIDES; s++) {
        loops[s] = calibrate(&sides[s], row);
        best[s] = 1e30;
    }
    for (int round = 0; round < ROUNDS; round++) {
        for (size_t s = 0; s < SIDES; s++) {
            double one = time_loops(&sides[s], row, loops[s]) / (double)loops[s];
            if (one < best[s])
                best[s] = one;
        }
    }
}

static void print_table(void)
{
    printf("%5s  %9s  %6s  %-21s  %18s", "bytes", "arguments", "answer", "content", "check");
    for (size_t s = 1; s < SIDES; s++) {
        char title[32];
        snprintf(title, sizeof title, "%s/check", sides[s].name);
        printf("  %15s", title);
    }
    printf("\n");
    for (size_t r = 0; r < ROWS; r++) {
        double best[SIDES];
        char check_time[40];
        measure(&rows[r], best);
        snprintf(check_time, sizeof check_time, "1.00 (%.0f ns)", best[0]);
        printf("%5zu  %9u  %6u  %-21s  %18s", rows[r].length, rows[r].arguments, rows[r].answer,
               rows[r].what, check_time);
        for (size_t s = 1; s < SIDES; s++)
            printf("  %15.2f", best[s] / best[0]);
        printf("\n");
        fflush(stdout);
    }
}

/* Instructions are counted between this function's beginning and end. */
__attribute__((noinline, noclone)) static void counted(const struct side *side,
                                                       const struct row *row)
{
    sink = side->call(row);
}

static int once(size_t r, size_t s)
{
    if (r >= ROWS || s >= SIDES)
        return 1;
    sink = sides[s].call(&rows[r]); /* first calls also resolve symbols */
    counted(&sides[s], &rows[r]);
    printf("%zu %s %s\n", rows[r].length, sides[s].name, rows[r].what);
    return 0;
}

int main(int argc, char **argv)
{
    make_rows();
    if (argc == 4 && strcmp(argv[1], "once") == 0)
        return once(strtoul(argv[2], NULL, 10), strtoul(argv[3], NULL, 10));
    if (argc == 2 && strcmp(argv[1], "rows") == 0)
        return printf("%d\n", ROWS) < 0;
    if (argc == 2 && strcmp(argv[1], "sides") == 0)
        return printf("%zu\n", SIDES) < 0;
    for (size_t r = 0; r < ROWS; r++)
        verify(&rows[r]);
    print_table();
    return 0;
}
