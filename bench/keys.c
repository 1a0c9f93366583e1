/* Commands whose keys are hard to search, beside an ordinary command of their
 * length.
 *
 *     keys          how many rows there are
 *     keys R        checks row R once, for counting instructions, and prints its
 *                   length, the answer and what it is
 *     keys long     the times of the check on long commands with distinct keys,
 *                   beside the second implementation's
 *     keys stack    the bytes of stack that the check needs at most, over the rows
 *                   and a command of 16,384 bytes
 *
 * Row 0 is the ordinary command. */

#include <pthread.h>
#include <signal.h>
#include <stdint.h>
#include <stdio.h>
#include <stdlib.h>
#include <string.h>
#include <sys/wait.h>
#include <time.h>
#include <unistd.h>

#include "command.h"
#include "hgrpc.h"
#include "../tests/second.h"

#define LENGTH HGRPC_COMMAND_LONGEST
#define ROOM (1u << 20)

static uint8_t bytes[ROOM];
static size_t length;

static void put(const void *from, size_t count)
{
    if (ROOM - length < count)
        abort();
    memcpy(bytes + length, from, count);
    length += count;
}

static void put_head(unsigned major, size_t argument)
{
    uint8_t head[5] = {(uint8_t)(major << 5)};
    size_t width = argument < 24 ? 0 : argument < 256 ? 1 : argument < 65536 ? 2 : 4;
    head[0] |= (uint8_t)(width == 0 ? argument : width == 1 ? 24 : width == 2 ? 25 : 26);
    for (size_t i = 0; i < width; i++)
        head[1 + i] = (uint8_t)(argument >> 8 * (width - 1 - i));
    put(head, 1 + width);
}

/* A name of `size` bytes, and the head of an `args` map. */
static void begin(size_t size, size_t entries)
{
    length = 0;
    put("\xa2\x44name", 6);
    put_head(2, size);
    for (size_t i = 0; i < size; i++)
        put("s", 1);
    put("\x44" "args", 5);
    put_head(5, entries);
}

static void put_key(const void *key, size_t size)
{
    put_head(2, size);
    put(key, size);
}

/* A key, and a value of one byte. */
static void entry(const void *key, size_t size, uint8_t value)
{
    put_key(key, size);
    put(&value, 1);
}

#define SEVEN 0x07
#define NO_BYTES 0x40

/* The key numbered `number` of all that are short: the empty one, those of one
 * byte, those of two. */
static void short_entry(size_t number, uint8_t value)
{
    uint8_t key[2] = {0, 0};
    if (number == 0) {
        entry(key, 0, value);
    } else if (number < 257) {
        key[0] = (uint8_t)(number - 1);
        entry(key, 1, value);
    } else {
        key[0] = (uint8_t)((number - 257) >> 8);
        key[1] = (uint8_t)(number - 257);
        entry(key, 2, value);
    }
}

/* ---- the orders in which keys may come ---- */

typedef size_t order(size_t i, size_t n);

static size_t up(size_t i, size_t n)
{
    (void)n;
    return i;
}

static size_t down(size_t i, size_t n)
{
    return n - 1 - i;
}

/* From both ends in turn, so that no key stands beside the one before it. */
static size_t ends(size_t i, size_t n)
{
    return i % 2 == 0 ? i / 2 : n - 1 - i / 2;
}

/* From the middle outward. */
static size_t outward(size_t i, size_t n)
{
    return ends(n - 1 - i, n);
}

/* In steps of a prime that divides none of the counts below. */
static size_t mixed(size_t i, size_t n)
{
    return i * 233 % n;
}

/* ---- keys with one mark ---- */

#define PRIME 16777619u

/* How many marks the search has for more than 16 keys. For fewer it has 64, which
 * divide the larger number that the longer keys below share. */
#define MARKS 1536u
#define MANY_MARKS (MARKS * 128)

/* The number of a key, of which the search makes its marks. */
static uint32_t number_of(const uint8_t *key, size_t size)
{
    uint32_t number = 0;
    for (size_t i = 0; i < size; i++)
        number = number * PRIME + key[i];
    return number;
}

/* Puts a number into the three bytes before a key's last, or into less. */
static void put_number(uint8_t *key, size_t size, uint32_t number)
{
    for (size_t i = 1; i < size && i < 4; i++)
        key[size - 1 - i] = (uint8_t)(number >> 8 * (i - 1));
}

/* The next key from number `*from` on whose own number is a multiple of `marks`.
 * It begins with k; its last byte makes the multiple, where a byte can. */
static void marked_key(uint8_t *key, size_t size, uint32_t marks, uint32_t *from)
{
    uint32_t last;
    memset(key, 'k', size);
    do {
        put_number(key, size, (*from)++);
        last = (marks - number_of(key, size - 1) * PRIME % marks) % marks;
    } while (last > 255);
    key[size - 1] = (uint8_t)last;
}

/* ---- the rows ---- */

/* 250 arguments with keys of five letters and digits, in no order. */
static void ordinary(void)
{
    begin(32, 250);
    for (unsigned i = 0; i < 250; i++) {
        char key[8];
        snprintf(key, sizeof key, "k%04u", i * 101 % 1000);
        put_key(key, 5);
        put_head(0, 100);
    }
}

#define SHORT 571

static void short_keys(order *of, uint8_t value)
{
    begin(3, SHORT);
    for (size_t i = 0; i < SHORT; i++)
        short_entry(of(i, SHORT), value);
}

static void in_order(void)
{
    short_keys(up, SEVEN);
}

static void backward(void)
{
    short_keys(down, SEVEN);
}

static void from_the_ends(void)
{
    short_keys(ends, SEVEN);
}

static void from_the_middle(void)
{
    short_keys(outward, SEVEN);
}

static void in_no_order(void)
{
    short_keys(mixed, SEVEN);
}

static void with_no_bytes(void)
{
    short_keys(mixed, NO_BYTES);
}

static void in_order_with_no_bytes(void)
{
    short_keys(up, NO_BYTES);
}

/* As in no order, but the last key is that of another entry. */
static void doubled(size_t other)
{
    begin(3, SHORT);
    for (size_t i = 0; i + 1 < SHORT; i++)
        short_entry(mixed(i, SHORT), SEVEN);
    short_entry(mixed(other, SHORT), SEVEN);
}

static void first_doubled(void)
{
    doubled(0);
}

static void last_doubled(void)
{
    doubled(SHORT - 2);
}

/* Key `i` of 571: the empty one, the 256 of one byte, and 314 of two bytes with
 * the marks of these. */
static void paired_entry(size_t i)
{
    uint8_t key[2];
    if (i < 257) {
        short_entry(i, NO_BYTES);
        return;
    }
    size_t mark = (i - 257) % 256, turn = (i - 257) / 256;
    for (unsigned first = 1; first < 256; first++) {
        size_t last = (mark + MARKS - PRIME * first % MARKS) % MARKS;
        key[0] = (uint8_t)first;
        key[1] = (uint8_t)last;
        if (last < 256 && turn-- == 0)
            break;
    }
    entry(key, 2, NO_BYTES);
}

static void paired(order *of)
{
    begin(3, SHORT);
    for (size_t i = 0; i < SHORT; i++)
        paired_entry(of(i, SHORT));
}

static void paired_in_order(void)
{
    paired(up);
}

static void paired_backward(void)
{
    paired(down);
}

static void paired_from_the_ends(void)
{
    paired(ends);
}

static void paired_in_no_order(void)
{
    paired(mixed);
}

/* As many keys as the search still marks: two and two of one and of two bytes,
 * which begin with 0, have one mark. An array fills the command. */
static void paired_400(void)
{
    begin(3, 400);
    for (size_t i = 0; i < 399; i++)
        short_entry(i < 200 ? 1 + i : 57 + i, NO_BYTES);
    put_key("key", 3);
    put_head(4, 627);
    for (unsigned i = 0; i < 627; i++)
        put("\x40", 1);
}

/* Keys of three bytes, in no order. */
static void three_bytes(void)
{
    begin(3, 406);
    for (size_t i = 0; i < 406; i++) {
        size_t number = mixed(i, 406) * 40503;
        uint8_t key[3] = {(uint8_t)(number >> 16), (uint8_t)(number >> 8), (uint8_t)number};
        entry(key, 3, SEVEN);
    }
}

#define MARKED 512
static uint8_t marked[MARKED][LENGTH];

static void make_marked(size_t size, size_t count, uint32_t marks)
{
    uint32_t from = 0;
    for (size_t i = 0; i < count; i++)
        marked_key(marked[i], size, marks, &from);
}

/* Keys of one length whose numbers are multiples of `marks`, and that differ in
 * their last four bytes alone. */
static void marked_keys(size_t size, size_t count, uint32_t marks)
{
    make_marked(size, count, marks);
    begin(3, count);
    for (size_t i = 0; i < count; i++)
        entry(marked[mixed(i, count)], size, NO_BYTES);
}

static void marked_3(void)
{
    marked_keys(3, 405, MARKS);
}

static void marked_4(void)
{
    marked_keys(4, 337, MANY_MARKS);
}

static void marked_8(void)
{
    marked_keys(8, 202, MANY_MARKS);
}

static void marked_28(void)
{
    marked_keys(28, 65, MANY_MARKS);
}

static void marked_115(void)
{
    marked_keys(115, 17, MANY_MARKS);
}

static void marked_123(void)
{
    marked_keys(123, 16, MANY_MARKS);
}

/* Two keys that differ in their last byte. */
static void two_keys(void)
{
    uint8_t key[1010];
    memset(key, 'k', sizeof key);
    begin(3, 2);
    entry(key, sizeof key, SEVEN);
    key[sizeof key - 1] = 'j';
    entry(key, sizeof key, SEVEN);
}

/* Entries of two bytes, all with the empty key. */
static void empty_keys(void)
{
    begin(3, 1015);
    for (unsigned i = 0; i < 1015; i++)
        short_entry(0, SEVEN);
}

/* Keys of two bytes in heads of nine. */
static void wide_heads(void)
{
    begin(3, 169);
    for (size_t i = 0; i < 169; i++) {
        size_t number = mixed(i, 169);
        uint8_t key[11] = {0x5b, 0, 0, 0, 0, 0, 0, 0, 2, (uint8_t)(number >> 4), (uint8_t)(number << 4)};
        put(key, sizeof key);
        put_head(0, 7);
    }
}

/* Each value an array in an array, six levels deep. */
static void deep(void)
{
    begin(3, 200);
    for (size_t i = 0; i < 200; i++) {
        uint8_t key[2] = {(uint8_t)(mixed(i, 200) >> 8), (uint8_t)mixed(i, 200)};
        put_key(key, 2);
        put("\x81\x81\x81\x81\x81\x81\x07", 7);
    }
}

/* One value, an array of one part again and again. */
static void one_array(const char *part, size_t size, size_t count)
{
    begin(3, 1);
    put_key("k", 1);
    put_head(4, count);
    for (size_t i = 0; i < count; i++)
        put(part, size);
}

static void array_of_arrays(void)
{
    one_array("\x81\x07", 2, 1013);
}

static void array_of_integers(void)
{
    one_array("\x07", 1, 2027);
}

static void array_of_no_bytes(void)
{
    one_array("\x40", 1, 2027);
}

static void array_of_nests(void)
{
    one_array("\x81\x81\x81\x81\x40", 5, 405);
}

/* `redirect` many times, after a large `args`. */
static void outer_doubled(void)
{
    length = 0;
    put("\xb8\x80\x44name\x43set\x44" "args", 16);
    put_head(5, 250);
    for (size_t i = 0; i < 250; i++)
        short_entry(mixed(i, 250), SEVEN);
    for (unsigned i = 0; i < 126; i++)
        put("\x48redirect\xa0", 10);
}

/* `args` with one argument, an array of byte strings of no bytes. */
static void put_array(size_t count)
{
    put("\x44" "args\xa1\x40", 7);
    put_head(4, count);
    for (size_t i = 0; i < count; i++)
        put("\x40", 1);
}

/* Nine entries in the outer map. The third is large, and each of the first three
 * has another key. */
static void nine_entries(void)
{
    length = 0;
    put("\xa9\x48redirect\xa0\x44name\x43set", 20);
    put_array(1982);
    for (unsigned i = 0; i < 6; i++)
        put("\x44" "args\xa0", 6);
}

/* The second of nine entries is large. */
static void nine_others(void)
{
    length = 0;
    put("\xa9\x44name\x43set", 10);
    put_array(1958);
    for (unsigned i = 0; i < 7; i++)
        put("\x48redirect\xa0", 10);
}

/* Several `args`, each with the same keys. */
static void several_args(size_t maps, size_t count, void (*put_entry)(size_t))
{
    length = 0;
    put_head(5, 1 + maps);
    put("\x44name\x43set", 9);
    for (size_t i = 0; i < maps * count; i++) {
        if (i % count == 0) {
            put("\x44" "args", 5);
            put_head(5, count);
        }
        put_entry(i % count);
    }
}

static void short_of_no_bytes(size_t number)
{
    short_entry(number, NO_BYTES);
}

static void args_of_17(void)
{
    several_args(36, 17, short_of_no_bytes);
}

static void args_of_8(void)
{
    several_args(69, 8, short_of_no_bytes);
}

static void mixed_of_317(size_t number)
{
    short_entry(mixed(number, 317), NO_BYTES);
}

static void args_of_317(void)
{
    several_args(2, 317, mixed_of_317);
}

/* Keys of one byte; of 64 marks, four keys each have one. */
static void four_to_a_mark(size_t number)
{
    uint8_t key = (uint8_t)(number / 4 + number % 4 * 64);
    entry(&key, 1, NO_BYTES);
}

static void args_of_16_bytes(void)
{
    several_args(37, 16, four_to_a_mark);
}

/* Keys of two bytes with one mark modulo 64. */
static void marked_of_64(size_t number)
{
    uint8_t key[2];
    uint32_t from = (uint32_t)number;
    marked_key(key, 2, 64, &from);
    entry(key, 2, NO_BYTES);
}

static void args_of_16(void)
{
    several_args(29, 16, marked_of_64);
}

struct row {
    const char *what;
    uint32_t answer;
    void (*make)(void);
};

static const struct row rows[] = {
    {"ordinary: 250 keys of five bytes", 0, ordinary},
    {"571 keys, in order", 0, in_order},
    {"571 keys, backward", 0, backward},
    {"571 keys, from both ends", 0, from_the_ends},
    {"571 keys, from the middle", 0, from_the_middle},
    {"571 keys, in no order", 0, in_no_order},
    {"571 keys, in no order, values of no bytes", 0, with_no_bytes},
    {"571 keys, in order, values of no bytes", 0, in_order_with_no_bytes},
    {"571 keys, the last as the first", 26, first_doubled},
    {"571 keys, the last as the one before", 26, last_doubled},
    {"571 keys, each with another's mark, in order", 0, paired_in_order},
    {"571 keys, each with another's mark, backward", 0, paired_backward},
    {"571 keys, each with another's mark, from both ends", 0, paired_from_the_ends},
    {"571 keys, each with another's mark, in no order", 0, paired_in_no_order},
    {"400 keys, each with another's mark, in order, and an array", 0, paired_400},
    {"406 keys of 3 bytes, in no order", 0, three_bytes},
    {"405 keys of 3 bytes with one mark", 0, marked_3},
    {"337 keys of 4 bytes with one mark", 0, marked_4},
    {"202 keys of 8 bytes with one mark", 0, marked_8},
    {"65 keys of 28 bytes with one mark", 0, marked_28},
    {"17 keys of 115 bytes with one mark", 0, marked_115},
    {"16 keys of 123 bytes with one mark", 0, marked_123},
    {"2 keys of 1,010 bytes", 0, two_keys},
    {"1,015 empty keys", 26, empty_keys},
    {"169 keys of 2 bytes in heads of nine", 0, wide_heads},
    {"200 values of six levels", 0, deep},
    {"1 array of 1,013 arrays", 0, array_of_arrays},
    {"1 array of 2,027 integers", 0, array_of_integers},
    {"1 array of 2,027 byte strings of no bytes", 0, array_of_no_bytes},
    {"1 array of 405 values of four levels", 0, array_of_nests},
    {"250 arguments, then 126 times redirect", 26, outer_doubled},
    {"redirect, name, args with an array, 6 times args", 26, nine_entries},
    {"name, args with an array, 7 times redirect", 26, nine_others},
    {"69 times args with 8 keys", 26, args_of_8},
    {"37 times args with 16 keys, four to a mark", 26, args_of_16_bytes},
    {"29 times args with 16 keys with one mark", 26, args_of_16},
    {"36 times args with 17 keys", 26, args_of_17},
    {"2 times args with 317 keys, in no order", 26, args_of_317},
};
#define ROWS (sizeof rows / sizeof rows[0])

/* What is counted. */
__attribute__((noinline)) uint32_t counted(void)
{
    return command_check(bytes, length);
}

static int one_row(size_t row)
{
    if (ROWS <= row)
        return 2;
    rows[row].make();
    uint32_t answer = counted();
    if (length > LENGTH || answer != rows[row].answer || second_check(bytes, length) != answer) {
        fprintf(stderr, "keys: %zu bytes, %u: %s\n", length, answer, rows[row].what);
        return 1;
    }
    printf("%zu %u %s\n", length, answer, rows[row].what);
    return 0;
}

/* ---- long commands ---- */

/* A row is left out if it takes longer. */
#define SECONDS 6

/* Keys of 2, 3 and 4 bytes come in turn. Those of 2 bytes end after 65,536. */
static size_t key_size(size_t i)
{
    return i % 3 == 0 && i / 3 > 0xffff ? 4 : 2 + i % 3;
}

/* Key `i` of distinct ones, in no order: an odd factor leaves them distinct. */
static void long_entry(size_t i)
{
    size_t size = key_size(i);
    uint32_t number = (uint32_t)(size == 4 ? i : i / 3) * 2654435761u;
    uint8_t key[4];
    for (size_t j = 0; j < size; j++)
        key[j] = (uint8_t)(number >> 8 * j);
    entry(key, size, SEVEN);
}

/* How many entries go into so many bytes. `left` is how many are left over. */
static size_t entries_in(size_t size, size_t *left)
{
    size_t entries = 0;
    while (2 + key_size(entries) <= size)
        size -= 2 + key_size(entries++);
    *left = size;
    return entries;
}

/* A command of exactly so many bytes, and how many keys it has. */
static size_t long_command(size_t size)
{
    size_t left, entries = entries_in(size - 20, &left);
    begin(0, entries);
    begin(20 + left - length, entries);
    for (size_t i = 0; i < entries; i++)
        long_entry(i);
    return entries;
}

static int in_order_of_size(const void *one, const void *other)
{
    double a = *(const double *)one, b = *(const double *)other;
    return (a > b) - (a < b);
}

/* The median of the milliseconds that a check takes. */
static double median(uint32_t (*check)(const uint8_t *, size_t), size_t rounds)
{
    double times[64];
    for (size_t i = 0; i < rounds; i++) {
        struct timespec start, end;
        clock_gettime(CLOCK_MONOTONIC, &start);
        if (check(bytes, length) != 0)
            exit(1);
        clock_gettime(CLOCK_MONOTONIC, &end);
        times[i] = (double)(end.tv_sec - start.tv_sec) * 1e3 + (double)(end.tv_nsec - start.tv_nsec) / 1e6;
    }
    qsort(times, rounds, sizeof *times, in_order_of_size);
    return times[rounds / 2];
}

static int long_row(size_t size)
{
    size_t rounds = 100000 / size < 3 ? 3 : 100000 / size;
    size_t keys = long_command(size);
    double check = median(command_check, rounds);
    double second = median(second_check, rounds);
    printf("%7zu  %6zu  %10.3f  %10.3f  %6.2f\n", length, keys, check, second, check / second);
    return 0;
}

/* The row of a child, which is ended if it takes too long. 0 if it was not. */
static int limited_row(size_t size)
{
    int status = 0;
    fflush(stdout);
    pid_t child = fork();
    if (child == 0) {
        alarm(SECONDS);
        exit(long_row(size));
    }
    if (child < 0 || waitpid(child, &status, 0) != child)
        return 1;
    if (WIFSIGNALED(status) && WTERMSIG(status) == SIGALRM) {
        printf("%7zu  more than %d s: left out, and all that are longer\n", size, SECONDS);
        return 2;
    }
    return WIFEXITED(status) && WEXITSTATUS(status) == 0 ? 0 : 1;
}

static int long_rows(void)
{
    static const size_t sizes[] = {LENGTH, 2 * LENGTH, 4 * LENGTH, 16384, 65536, 262144, 1048576};
    int ended = 0;
    printf("%7s  %6s  %10s  %10s  %6s\n", "bytes", "keys", "check ms", "second ms", "ratio");
    for (size_t i = 0; i < sizeof sizes / sizeof *sizes && ended == 0; i++)
        ended = limited_row(sizes[i]);
    return ended == 1;
}

/* ---- the stack ---- */

#define STACK (1u << 20)
#define PAINT 0xa5
static uint8_t stack[STACK] __attribute__((aligned(4096)));

static void *checked(void *skip)
{
    if (skip == NULL)
        command_check(bytes, length);
    return skip;
}

/* How much of a painted stack a thread changes that checks the command, or that
 * does not. */
static size_t touched(void *skip)
{
    pthread_t thread;
    pthread_attr_t attributes;
    size_t unchanged = 0;
    memset(stack, PAINT, STACK);
    if (pthread_attr_init(&attributes) != 0 || pthread_attr_setstack(&attributes, stack, STACK) != 0 ||
        pthread_create(&thread, &attributes, checked, skip) != 0 || pthread_join(thread, NULL) != 0)
        exit(1);
    while (unchanged < STACK && stack[unchanged] == PAINT)
        unchanged++;
    return STACK - unchanged;
}

static int stack_needed(void)
{
    size_t without = touched(stack), most = 0;
    for (size_t row = 0; row <= ROWS; row++) {
        if (row < ROWS)
            rows[row].make();
        else
            long_command(16384);
        size_t with = touched(NULL);
        if (most < with)
            most = with;
    }
    return printf("stack of the check at most: %zu bytes\n", most - without) < 0;
}

int main(int argc, char **argv)
{
    if (argc == 1)
        return printf("%zu\n", ROWS) < 0;
    if (strcmp(argv[1], "stack") == 0)
        return stack_needed();
    if (strcmp(argv[1], "long") == 0)
        return long_rows();
    return one_row(strtoul(argv[1], NULL, 10));
}
