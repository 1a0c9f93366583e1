/* The main loop of a board with sixteen coils: standard input stands for the
 * serial line, and what the coils do is printed. From the repository's folder,
 * with the archive made by `./build hgrpc`:
 *
 *     cc -O2 -Iinclude examples/board.c target/staticlib/libhgrpc.a -o target/board
 *     target/board <samples/coils.capture */

#include <stdio.h>
#include <string.h>

#include "hgrpc.h"

/* All that the channel needs. The output has room for the longest record. */
static hgrpc_state state;
static uint8_t work[HGRPC_WORK];
static uint8_t out[HGRPC_OUTPUT];

/* The coils, with their switches and labels. */
static hgrpc_board coils;

/* The words of a refusal by the board. */
static const char *meaning(uint32_t number)
{
    switch (number) {
    case 40: return "unknown command";
    case 41: return "argument missing, extra or of the wrong type";
    case 42: return "coil not 0 to 15";
    case 43: return "text over 16 bytes";
    default: return "a number that a board does not have";
    }
}

/* Text in quotes, or in hex if it has bytes that are not plain characters. */
static void print_text(const uint8_t *text, size_t size)
{
    size_t i;
    for (i = 0; i < size && text[i] >= ' ' && text[i] <= '~'; i++)
        if (text[i] == '\'' || text[i] == '\\')
            break;
    if (i == size) {
        printf("'%.*s'", (int)size, (const char *)text);
        return;
    }
    printf("h'");
    for (i = 0; i < size; i++)
        printf("%02x", text[i]);
    printf("'");
}

/* Prints each coil that is not as it was. A real board sets its outputs here. */
static void print_changes(const hgrpc_board *before)
{
    size_t number;
    for (number = 0; number < HGRPC_COILS; number++) {
        hgrpc_coil old, now;
        hgrpc_coils_look(before, number, &old);
        hgrpc_coils_look(&coils, number, &now);
        if (old.on == now.on && old.size == now.size && memcmp(old.label, now.label, now.size) == 0)
            continue;
        printf("  coil %zu: %s, ", number, now.on ? "on" : "off");
        if (now.size == 0) {
            printf("no label\n");
            continue;
        }
        printf("label ");
        print_text(now.label, now.size);
        printf("\n");
    }
}

/* The board does a command as soon as its record comes, also where data follows:
 * none of its commands has a use for data. A refused one leaves every coil, and
 * its number is answered. */
static uint32_t act(const hgrpc_record *record)
{
    hgrpc_board before = coils;
    uint32_t number;
    size_t at, size;
    if (record->kind == HGRPC_KIND_DATA) {
        printf("data %u: %zu bytes%s\n", record->request, record->length,
               record->bit ? ", the last" : "");
        return 0;
    }
    /* Feed has checked the command, so its name is there. */
    hgrpc_name(record->bytes, record->length, &at, &size);
    printf("command %u: ", record->request);
    print_text(record->bytes + at, size);
    printf("%s\n", record->bit ? ", data follows" : "");
    number = hgrpc_coils_apply(&coils, record->bytes, record->length);
    if (number != 0)
        printf("  refused %u: %s%s\n", number, meaning(number),
               record->bit ? "; its data is drained" : "");
    print_changes(&before);
    return number;
}

/* The records at the front of the output. A request that runs is finished when
 * the board has acted on it, so that its slot is free for another. One that the
 * board refuses is finished early: the laptop need not be heard to its end. What
 * it still sends is then taken off the line without a record, and the last of it
 * frees the slot. */
static void take_records(size_t written)
{
    hgrpc_record record;
    size_t place = 0;
    while (hgrpc_next_record(out, written, &place, &record)) {
        if (act(&record) != 0 || hgrpc_record_runs(&record))
            hgrpc_channel_finish(&state, record.request);
    }
}

/* Feeds a piece of the line. On 5 the output was too full for another record:
 * its records are taken, and the rest of the piece is offered again. */
static uint32_t take_piece(const uint8_t *piece, size_t length)
{
    hgrpc_fed fed;
    do {
        fed = hgrpc_channel_feed(&state, work, sizeof work, piece, length, out, sizeof out);
        take_records(fed.written);
        piece += fed.taken;
        length -= fed.taken;
    } while (fed.number == 5);
    return fed.number;
}

/* What the panel shows when the board stops: how many requests are active, and if there
 * are any, what is in which slot. A real board sets its status lamp by the count in each
 * turn of its loop. The channel may be dead: it is asked all the same. */
static void print_active(void)
{
    static const char *const phases[] = {"free", "collecting", "waiting", "running", "draining"};
    hgrpc_entry row[HGRPC_REQUESTS];
    size_t slot, count;
    if (hgrpc_channel_active(&state, &count) != 0 || count == 0 || hgrpc_channel_row(&state, row) != 0)
        return;
    printf("active: %zu\n", count);
    for (slot = 0; slot < HGRPC_REQUESTS; slot++)
        if (row[slot].phase != HGRPC_PHASE_FREE)
            printf("  slot %zu: request %u, %s\n", slot, row[slot].id, phases[row[slot].phase]);
}

int main(void)
{
    /* A serial line has some bytes at a time, and at times none: that is a
     * feed with an empty input, and not the end. */
    static const size_t sizes[] = {3, 9, 0};
    uint8_t piece[9];
    unsigned turn;
    hgrpc_channel_fresh(&state);
    hgrpc_coils_first(&coils);
    for (turn = 0; !feof(stdin) && !ferror(stdin); turn++) {
        size_t length = fread(piece, 1, sizes[turn % 3], stdin);
        uint32_t number = take_piece(piece, length);
        if (number >= 11) {
            /* A frame broke rule `number`. The channel is dead: every later
             * call would answer this number and do nothing. A board that goes
             * on calls hgrpc_channel_fresh here; this one stops. */
            printf("refused %u: the channel is dead\n", number);
            print_active();
            return 1;
        }
        if (number != 0) {
            /* 1, 2 or 3: a buffer too short, or bytes that are no state. */
            printf("called wrongly: %u\n", number);
            return 2;
        }
    }
    print_active();
    return 0;
}
