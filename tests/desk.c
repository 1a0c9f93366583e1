/* Compares the calls of the command archive, as the desk tool makes them, with
 * the second implementation.
 *
 *     desk COMMANDS SEED         on commands of every kind
 *     desk COMMANDS SEED keys    on commands made for the search for double keys */

#include <inttypes.h>
#include <stdio.h>
#include <stdlib.h>
#include <string.h>

#include "command.h"
#include "second.h"

struct answers {
    uint32_t check, loose, argument, integer;
    int64_t value;
    uint64_t count;
};

static struct answers archive_answers(const uint8_t *command, size_t length,
                                      const uint8_t *key, size_t key_length)
{
    struct answers answers;
    answers.check = command_check(command, length);
    answers.loose = command_loose(command, length);
    answers.argument = command_argument_number(command, length, key, key_length);
    answers.integer = command_integer_number(command, length, key, key_length);
    answers.value = command_integer(command, length, key, key_length);
    answers.count = command_argument_count(command, length);
    return answers;
}

static struct answers second_answers(const uint8_t *command, size_t length,
                                     const uint8_t *key, size_t key_length)
{
    size_t at, size;
    struct answers answers;
    answers.check = second_check(command, length);
    answers.loose = second_loose(command, length);
    answers.argument = second_argument(command, length, key, key_length, &at, &size);
    answers.integer = second_integer(command, length, key, key_length, &answers.value);
    answers.count = second_argument_count(command, length);
    return answers;
}

typedef struct generated *generator(uint64_t seed, uint64_t index);

/* What came up: the number of a lookup, and `loose` of an accepted command. */
struct met {
    int numbers[32], loose[2];
};

/* Whether both answer alike. */
static int alike(generator *make, uint64_t seed, uint64_t index, struct met *met)
{
    size_t length, key_length;
    struct generated *generated = make(seed, index);
    const uint8_t *command = generated_command(generated, &length);
    const uint8_t *key = generated_key(generated, &key_length);
    struct answers one = archive_answers(command, length, key, key_length);
    struct answers other = second_answers(command, length, key, key_length);
    generated_free(generated);
    met->numbers[one.integer % 32] = 1;
    if (one.check == 0)
        met->loose[one.loose % 2] = 1;
    return one.check == other.check && one.loose == other.loose && one.argument == other.argument
        && one.integer == other.integer && one.value == other.value && one.count == other.count;
}

int main(int argc, char **argv)
{
    static const int numbers[] = {0, 6, 7, 8, 24, 25, 26};
    uint64_t commands = argc > 1 ? strtoull(argv[1], NULL, 10) : 0;
    uint64_t seed = argc > 2 ? strtoull(argv[2], NULL, 10) : 0;
    int keys = argc > 3 && strcmp(argv[3], "keys") == 0;
    generator *make = keys ? generated_keys_new : generated_new;
    struct met met = {{0}, {0}};
    for (uint64_t index = 0; index < commands; index++)
        if (!alike(make, seed, index, &met)) {
            printf("desk (C): difference at seed %" PRIu64 ", index %" PRIu64 "\n", seed, index);
            return 1;
        }
    for (size_t i = 0; i < sizeof numbers / sizeof *numbers; i++)
        if (!met.numbers[numbers[i]]) {
            printf("desk (C): %d never came up\n", numbers[i]);
            return 1;
        }
    for (int loose = 0; loose < 2; loose++)
        if (!met.loose[loose]) {
            printf("desk (C): loose %d never came up\n", loose);
            return 1;
        }
    printf("desk (C): %" PRIu64 " commands, no difference\n", commands);
    return 0;
}
