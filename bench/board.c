/* Calls on commands for a board, for bench/run to count: `board ROW` checks the
 * command of a row, has a board do it, and prints what it is; `board` alone tells
 * how many rows there are. The first board is lent to each. */

#include <stdio.h>
#include <stdlib.h>
#include <string.h>
#include "hgrpc.h"

struct row {
    const char *what;
    uint32_t number;
    unsigned arguments;
    size_t length;
    uint8_t bytes[HGRPC_COMMAND_LONGEST];
};

static void put(struct row *row, const void *bytes, size_t count)
{
    if (row->length + count > sizeof row->bytes)
        abort();
    memcpy(row->bytes + row->length, bytes, count);
    row->length += count;
}

/* The name, the head of `args` for so many arguments, and what follows it. */
static struct row *begin(struct row *row, const char *what, uint32_t number, const char *name,
                         unsigned arguments, const char *rest, size_t rest_length)
{
    const uint8_t size = (uint8_t)(0x40 | strlen(name));
    const uint8_t head[3] = {0xb9, (uint8_t)(arguments >> 8), (uint8_t)arguments};
    row->what = what;
    row->number = number;
    row->arguments = arguments;
    put(row, "\xa2\x44name", 6);
    put(row, &size, 1);
    put(row, name, strlen(name));
    put(row, "\x44" "args", 5);
    put(row, head, sizeof head);
    put(row, rest, rest_length);
    return row;
}
#define REST(text) text, sizeof(text) - 1

/* Arguments with keys of two bytes, as many as there are to be, before the others. */
static void fill(struct row *row, unsigned others)
{
    for (unsigned i = others; i < row->arguments; i++) {
        const uint8_t pair[4] = {0x42, (uint8_t)(i >> 8 | 0x80), (uint8_t)i, 7};
        put(row, pair, sizeof pair);
    }
}

/* An array of integers that fills the command. */
static void put_array(struct row *row)
{
    size_t left = sizeof row->bytes - row->length - 3;
    const uint8_t head[3] = {0x99, (uint8_t)(left >> 8), (uint8_t)left};
    put(row, head, sizeof head);
    memset(row->bytes + row->length, 7, left);
    row->length += left;
}

static struct row rows[9];

static size_t make_rows(void)
{
    static uint8_t text[HGRPC_COMMAND_LONGEST];
    struct row *row = rows;
    begin(row++, "set", 0, "set", 2, REST("\x44" "coil\x03\x42" "on\xf5"));
    begin(row++, "label of 16 bytes", 0, "label", 2, REST("\x44" "coil\x03\x44" "text\x50sixteen bytes on"));
    begin(row++, "off", 0, "off", 0, REST(""));
    begin(row++, "set with an argument too many", 41, "set", 3, REST("\x44" "coil\x03\x42" "on\xf5\x41x\x07"));
    begin(row, "label with one long text", 43, "label", 2, REST("\x44" "coil\x03\x44" "text\x59\x07\xde"));
    put(row, text, sizeof row->bytes - row->length);
    row++;
    put_array(begin(row++, "set with one long array", 41, "set", 2, REST("\x44" "coil\x03\x42" "on")));
    fill(begin(row++, "set with integers", 41, "set", 49, REST("")), 0);
    fill(begin(row++, "set with as many integers as can be", 41, "set", 507, REST("")), 0);
    fill(begin(row, "the same, `coil` and `on` last", 41, "set", 504, REST("")), 2);
    put(row++, "\x44" "coil\x03\x42" "on\xf5", 10);
    return (size_t)(row - rows);
}

int main(int count, char **words)
{
    static hgrpc_board board;
    size_t made = make_rows(), place = count == 2 ? strtoul(words[1], NULL, 10) : made;
    const struct row *row = &rows[place];
    if (count == 1)
        return printf("%zu\n", made) < 0;
    if (place >= made)
        return 2;
    hgrpc_coils_first(&board);
    if (hgrpc_check(row->bytes, row->length) != 0
        || hgrpc_coils_apply(&board, row->bytes, row->length) != row->number) {
        fprintf(stderr, "board: another number was answered to: %s\n", row->what);
        return 1;
    }
    printf("%zu %u %u %s\n", row->length, row->arguments, row->number, row->what);
    return 0;
}
