/* The calls that the archive of the command crate gives to C. A byte slice
 * is a pointer, which is not NULL, and a length. */

#ifndef COMMAND_H
#define COMMAND_H

#include <stddef.h>
#include <stdint.h>

/* 0, 24, 25 or 26. A command needs `name`; `args` and `redirect` may be
 * missing, and a missing `args` reads as an empty map. */
uint32_t command_check(const uint8_t *command, size_t length);

/* The number of arguments, 0 if the check refuses the command. */
uint64_t command_argument_count(const uint8_t *command, size_t length);

/* 1 if the command is written loosely: one of its heads, be it of an integer, a
 * byte string, an array, a map or a set's tag, is not the shortest for its number.
 * 0 if all are, or if the check refuses the command. */
uint32_t command_loose(const uint8_t *command, size_t length);

/* The check's number, then 6 if the key is absent, else 0. */
uint32_t command_argument_number(const uint8_t *command, size_t length,
                                 const uint8_t *key, size_t key_length);

/* The check's number, then 6, 7 or 8, else 0. */
uint32_t command_integer_number(const uint8_t *command, size_t length,
                                const uint8_t *key, size_t key_length);

/* The integer, or 0 if it is refused. */
int64_t command_integer(const uint8_t *command, size_t length,
                        const uint8_t *key, size_t key_length);

#endif
