/* The second implementation and the generator, as bridge.rs gives them
 * to C. */

#ifndef SECOND_H
#define SECOND_H

#include <stddef.h>
#include <stdint.h>

uint32_t second_check(const uint8_t *command, size_t length);
/* 1 if the command passes the check and has no `args`, else 0. */
uint32_t second_lacks_args(const uint8_t *command, size_t length);
/* As hgrpc_argument_count, hgrpc_loose, hgrpc_name, hgrpc_argument and
 * hgrpc_integer answer. */
uint64_t second_argument_count(const uint8_t *command, size_t length);
uint32_t second_loose(const uint8_t *command, size_t length);
uint32_t second_name(const uint8_t *command, size_t length, size_t *at, size_t *size);
uint32_t second_argument(const uint8_t *command, size_t length,
                         const uint8_t *key, size_t key_length, size_t *at, size_t *size);
uint32_t second_integer(const uint8_t *command, size_t length,
                        const uint8_t *key, size_t key_length, int64_t *value);

struct generated;

/* The command and key of a seed and an index, to be freed. */
struct generated *generated_new(uint64_t seed, uint64_t index);
/* The same of the commands made for the search for double keys. */
struct generated *generated_keys_new(uint64_t seed, uint64_t index);
void generated_free(struct generated *generated);
const uint8_t *generated_command(const struct generated *generated, size_t *length);
const uint8_t *generated_key(const struct generated *generated, size_t *length);

#endif
