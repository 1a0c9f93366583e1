/* Compares the archive's calls on commands with the second implementation,
 * from C.
 *
 *     compare [commands [seed]]
 *
 * Every command lies against a page that may not be touched: the even ones
 * end just before such a page, the odd ones begin just after one. A read or
 * write outside the lent bytes ends the program. */

#include <inttypes.h>
#include <stdio.h>
#include <stdlib.h>
#include <string.h>
#include <sys/mman.h>
#include <unistd.h>

#include "hgrpc.h"
#include "second.h"

#define CALLS 4
#define ANSWERS 7
static const uint32_t numbers[ANSWERS] = {0, 24, 25, 26, 6, 7, 8};

struct slice {
    const uint8_t *bytes;
    size_t length;
};

/* What a lookup answers: its number, and where the part stands. */
struct part {
    uint32_t number;
    size_t at, size;
};

struct answers {
    uint32_t check, loose;
    uint64_t count;
    struct part name, argument;
    uint32_t integer_number;
    int64_t integer;
};

/* The calls of one implementation. */
struct side {
    uint32_t (*check)(const uint8_t *, size_t);
    uint64_t (*count)(const uint8_t *, size_t);
    uint32_t (*loose)(const uint8_t *, size_t);
    uint32_t (*name)(const uint8_t *, size_t, size_t *, size_t *);
    uint32_t (*argument)(const uint8_t *, size_t, const uint8_t *, size_t, size_t *, size_t *);
    uint32_t (*integer)(const uint8_t *, size_t, const uint8_t *, size_t, int64_t *);
};

static const struct side archive_calls = {
    hgrpc_check, hgrpc_argument_count, hgrpc_loose, hgrpc_name, hgrpc_argument, hgrpc_integer};
static const struct side second_calls = {
    second_check, second_argument_count, second_loose, second_name, second_argument, second_integer};

static struct answers ask(const struct side *side, struct slice command, struct slice key)
{
    const uint8_t *c = command.bytes, *k = key.bytes;
    size_t length = command.length;
    struct answers a;
    memset(&a, 0x55, sizeof a);
    a.check = side->check(c, length);
    a.count = side->count(c, length);
    a.loose = side->loose(c, length);
    a.name.number = side->name(c, length, &a.name.at, &a.name.size);
    a.argument.number = side->argument(c, length, k, key.length, &a.argument.at, &a.argument.size);
    a.integer_number = side->integer(c, length, k, key.length, &a.integer);
    return a;
}

static int equal_parts(struct part one, struct part other)
{
    return one.number == other.number && one.at == other.at && one.size == other.size;
}

static int equal(struct answers one, struct answers other)
{
    return one.check == other.check && one.count == other.count && one.loose == other.loose
        && equal_parts(one.name, other.name)
        && equal_parts(one.argument, other.argument)
        && one.integer_number == other.integer_number && one.integer == other.integer;
}

static void print_answers(const char *side, struct answers a)
{
    printf("%s check %" PRIu32 ", count %" PRIu64 ", loose %" PRIu32 ", name %" PRIu32
           " %zu %zu, argument %" PRIu32 " %zu %zu, integer %" PRIu32 " %" PRId64 "\n",
           side, a.check, a.count, a.loose, a.name.number, a.name.at, a.name.size, a.argument.number,
           a.argument.at, a.argument.size, a.integer_number, a.integer);
}

static void print_hex(const char *what, struct slice slice)
{
    printf("%s ", what);
    for (size_t i = 0; i < slice.length; i++)
        printf("%02x", slice.bytes[i]);
    printf("\n");
}

/* Room for commands and keys between two pages that may not be touched. */
struct fenced {
    uint8_t *room;
    size_t size;
};

static struct fenced make_fenced(size_t wanted)
{
    size_t page = (size_t)sysconf(_SC_PAGESIZE);
    size_t size = (wanted + page - 1) / page * page;
    uint8_t *all = mmap(NULL, size + 2 * page, PROT_NONE, MAP_PRIVATE | MAP_ANONYMOUS, -1, 0);
    if (all == MAP_FAILED || mprotect(all + page, size, PROT_READ | PROT_WRITE) != 0) {
        perror("compare (C)");
        exit(1);
    }
    return (struct fenced){all + page, size};
}

static struct slice put(struct fenced fenced, struct slice slice, int at_end)
{
    if (slice.length > fenced.size) {
        printf("compare (C): a slice of %zu bytes has no room\n", slice.length);
        exit(1);
    }
    uint8_t *place = fenced.room + (at_end ? fenced.size - slice.length : 0);
    if (slice.length > 0)
        memcpy(place, slice.bytes, slice.length);
    return (struct slice){place, slice.length};
}

static int same_bytes(struct slice one, struct slice other)
{
    return one.length == 0 || memcmp(one.bytes, other.bytes, one.length) == 0;
}

static void fail(struct slice command, struct slice key, uint64_t seed, uint64_t index,
                 const char *reason)
{
    printf("compare (C): %s at seed %" PRIu64 ", index %" PRIu64 "\n", reason, seed, index);
    print_hex("command", command);
    print_hex("key    ", key);
    exit(1);
}

/* How often a call gave each of the numbers. */
struct count {
    const char *call;
    int possible; /* how many of the numbers, from the first, it can give */
    uint64_t counts[ANSWERS];
};

static void add(struct count *count, uint32_t number)
{
    for (int i = 0; i < ANSWERS; i++)
        if (numbers[i] == number)
            count->counts[i]++;
}

static void print_count(const struct count *count)
{
    printf("%-24s", count->call);
    for (int i = 0; i < count->possible; i++)
        printf("  %" PRIu32 ": %" PRIu64, numbers[i], count->counts[i]);
    printf("\n");
}

static void fail_if_rare(const struct count *count, uint64_t commands)
{
    for (int i = 0; i < count->possible; i++) {
        if (count->counts[i] == 0 || count->counts[i] * 100 < commands) {
            printf("compare (C): %s gave %" PRIu32 " in less than 1%%\n", count->call, numbers[i]);
            exit(1);
        }
    }
}

/* How many commands were accepted without `args`, had several arguments, and
 * were accepted with and without a loose head. */
struct met {
    uint64_t lacking, several, loose, shortest;
};

static void add_met(struct met *met, struct answers answers, struct slice command)
{
    met->lacking += second_lacks_args(command.bytes, command.length);
    met->several += answers.count > 1;
    met->loose += answers.loose == 1;
    met->shortest += answers.check == 0 && answers.loose == 0;
}

static void print_met(const struct met *met)
{
    printf("accepted without args    %" PRIu64 "\n", met->lacking);
    printf("several arguments        %" PRIu64 "\n", met->several);
    printf("accepted and loose       %" PRIu64 "\n", met->loose);
    printf("accepted and shortest    %" PRIu64 "\n", met->shortest);
}

static struct answers compare(struct fenced for_command, struct fenced for_key, uint64_t seed,
                              uint64_t index, struct met *met)
{
    struct generated *generated = generated_new(seed, index);
    struct slice command, key;
    command.bytes = generated_command(generated, &command.length);
    key.bytes = generated_key(generated, &key.length);
    int at_end = index % 2 == 0;
    struct slice lent = put(for_command, command, at_end);
    struct slice lent_key = put(for_key, key, at_end);

    struct answers archive = ask(&archive_calls, lent, lent_key);
    struct answers second = ask(&second_calls, command, key);
    if (!equal(archive, second)) {
        print_answers("archive", archive);
        print_answers("second ", second);
        fail(command, key, seed, index, "difference");
    }
    if (!same_bytes(lent, command) || !same_bytes(lent_key, key))
        fail(command, key, seed, index, "the lent bytes were changed");
    add_met(met, archive, command);
    generated_free(generated);
    return archive;
}

int main(int argc, char **argv)
{
    uint64_t commands = argc > 1 ? strtoull(argv[1], NULL, 10) : 300000;
    uint64_t seed = argc > 2 ? strtoull(argv[2], NULL, 10) : 2;
    struct count counts[CALLS] = {
        {"hgrpc_check", 4, {0}},
        {"hgrpc_name", 4, {0}},
        {"hgrpc_argument", 5, {0}},
        {"hgrpc_integer", 7, {0}},
    };
    struct fenced for_command = make_fenced(1 << 18);
    struct fenced for_key = make_fenced(1 << 14);
    struct met met = {0, 0, 0, 0};

    printf("compare (C): seed %" PRIu64 "\n", seed);
    for (uint64_t index = 0; index < commands; index++) {
        struct answers answers = compare(for_command, for_key, seed, index, &met);
        add(&counts[0], answers.check);
        add(&counts[1], answers.name.number);
        add(&counts[2], answers.argument.number);
        add(&counts[3], answers.integer_number);
    }
    for (int i = 0; i < CALLS; i++)
        print_count(&counts[i]);
    print_met(&met);
    for (int i = 0; i < CALLS; i++)
        fail_if_rare(&counts[i], commands);
    if (met.lacking * 50 < commands || met.several * 10 < commands || met.loose * 10 < commands
        || met.shortest * 20 < commands) {
        printf("compare (C): accepted without args in less than 2%%, with several arguments or loose in less "
               "than 10%%, or shortest in less than 5%%\n");
        return 1;
    }
    printf("compare (C): %" PRIu64 " commands, no difference\n", commands);
    return 0;
}
