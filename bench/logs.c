/* Two logs for bench/logdiff to compare, with records of mixed lengths.
 *
 *     logs BYTES LONGEST STEP LOG1 LOG2
 *
 * writes records with bodies of 0 to LONGEST bytes to both files, till each has at
 * least BYTES bytes, and prints how many records there are. Every STEP-th one differs,
 * in a byte of its body or, if that has none, in its kind; none if STEP is 0. */

#include <stdint.h>
#include <stdio.h>
#include <stdlib.h>
#include <string.h>

#define HEAD 6
#define BODY 65535

static uint64_t state = 10;

/* xorshift64 */
static uint64_t any(void)
{
    state ^= state << 13;
    state ^= state >> 7;
    state ^= state << 17;
    return state;
}

static void put(const uint8_t *record, size_t length, FILE *file)
{
    if (fwrite(record, 1, length, file) != length) {
        perror("logs");
        exit(1);
    }
}

int main(int count, char **words)
{
    static uint8_t record[HEAD + BODY + 8];
    if (count != 6)
        return 2;
    const uint64_t bytes = strtoull(words[1], NULL, 10);
    const uint64_t longest = strtoull(words[2], NULL, 10), step = strtoull(words[3], NULL, 10);
    FILE *first = fopen(words[4], "wb"), *second = fopen(words[5], "wb");
    if (longest > BODY || first == NULL || second == NULL) {
        perror("logs");
        return 1;
    }
    uint64_t number = 0;
    for (uint64_t at = 0; at < bytes;) {
        const size_t body = any() % (longest + 1), length = HEAD + body;
        record[0] = (uint8_t)body;
        record[1] = (uint8_t)(body >> 8);
        record[4] = 1;
        for (size_t i = 0; i < body; i += 8) {
            const uint64_t some = any();
            memcpy(record + HEAD + i, &some, sizeof some);
        }
        put(record, length, first);
        number++;
        if (step != 0 && number % step == 0)
            record[body == 0 ? 4 : HEAD + any() % body] ^= 2;
        put(record, length, second);
        at += length;
    }
    if (fclose(first) != 0 || fclose(second) != 0) {
        perror("logs");
        return 1;
    }
    printf("%llu\n", (unsigned long long)number);
    return 0;
}
