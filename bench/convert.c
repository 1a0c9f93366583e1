/* The converter of stored logs, beside a plain copy of the same bytes, for bench/run
 * to count and to time: logs of about a megabyte whose records have bodies of one
 * length.
 *
 *     convert            prints how many rows there are
 *     convert ROW        converts the row's log once, and copies it once
 *     convert time ROW   prints the best nanoseconds for each 1,024 bytes of both */

#include <stdio.h>
#include <stdlib.h>
#include <string.h>
#include <time.h>
#include "hgrpc.h"

#define LOG (1u << 20)
#define ROUNDS 200
#define PART (1u << 12)

static const size_t bodies[] = {19, 203, 4099, 0xffff};
static uint8_t log_bytes[LOG], out[2 * LOG];
static size_t length;

static void fill(size_t body)
{
    for (length = 0; LOG - length >= 4 + body; length += 4 + body) {
        uint8_t *record = log_bytes + length;
        record[0] = (uint8_t)body;
        record[1] = (uint8_t)(body >> 8);
        record[2] = 1;
        record[3] = 0;
        for (size_t i = 0; i < body; i++)
            record[4 + i] = (uint8_t)(7 * i + i / 256);
    }
}

void converted(void)
{
    size_t written;
    if (hgrpc_convert(log_bytes, length, out, sizeof out, &written) != 0 || written <= length) {
        fputs("convert: the log is not converted\n", stderr);
        exit(1);
    }
}

/* In parts of 4,096 bytes: a longer copy is one repeated instruction, whose count
 * says nothing. */
void copied(void)
{
    for (size_t at = 0; at < length; at += PART) {
        memcpy(out + at, log_bytes + at, length - at < PART ? length - at : PART);
        __asm__ volatile("" ::: "memory");
    }
}

static double best(void (*call)(void))
{
    double least = 1e18;
    for (int round = 0; round < ROUNDS; round++) {
        struct timespec from, to;
        clock_gettime(CLOCK_MONOTONIC, &from);
        call();
        clock_gettime(CLOCK_MONOTONIC, &to);
        double now = (to.tv_sec - from.tv_sec) * 1e9 + (to.tv_nsec - from.tv_nsec);
        if (now < least)
            least = now;
    }
    return least * 1024 / length;
}

int main(int count, char **words)
{
    const size_t rows = sizeof bodies / sizeof *bodies;
    if (count == 1) {
        printf("%zu\n", rows);
        return 0;
    }
    size_t row = strtoul(words[count - 1], NULL, 10);
    if (row >= rows || count > 3)
        return 2;
    fill(bodies[row]);
    if (count == 3) {
        printf("%zu %.0f %.0f\n", bodies[row], best(converted), best(copied));
        return 0;
    }
    converted();
    copied();
    printf("%zu %zu\n", bodies[row], length);
    return 0;
}
