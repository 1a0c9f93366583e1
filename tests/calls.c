/* Every call of include/hgrpc.h with every kind of answer. It is C99 and C++11
 * at once, and is run with and without the sanitizers. */

#include <stdio.h>
#include <stdlib.h>
#include <string.h>

#include "hgrpc.h"

#define NAME "\x44" "name" "\x43" "set"
#define COMMAND "\xa2" NAME "\x44" "args\xa0"
#define T1 "\x10\0\0\1\0\1\1\x11" COMMAND
#define RECORD "\x13\0\0\0\1\0\1\0\0" COMMAND
#define BYTES(text) (const uint8_t *)(text), sizeof(text) - 1
#define IS(got, wanted) is(__LINE__, (long long)(got), (long long)(wanted))

static unsigned answers;

/* A channel with the buffers that are lent to it. */
typedef struct {
    hgrpc_state state;
    uint8_t work[HGRPC_WORK];
    uint8_t out[HGRPC_OUTPUT + 999];
} board;

static board b;

/* What the latest feed answered. */
static hgrpc_fed latest;

static void is(int line, long long got, long long wanted)
{
    answers++;
    if (got != wanted) {
        printf("calls: line %d: %lld, not %lld\n", line, got, wanted);
        exit(1);
    }
}

static hgrpc_fed feed(const uint8_t *input, size_t length)
{
    latest = hgrpc_channel_feed(&b.state, b.work, sizeof b.work, input, length, b.out, HGRPC_OUTPUT);
    return latest;
}

/* Feeds bytes that are all taken, and answers the number. */
static uint32_t feed_all(const uint8_t *input, size_t length)
{
    hgrpc_fed fed = feed(input, length);
    IS(fed.taken, length);
    return fed.number;
}

/* Feeds one frame. `last` is the byte with its type and flags. */
static uint32_t frame(unsigned id, unsigned stream, unsigned stream_flags, unsigned last,
                      const uint8_t *payload, size_t length)
{
    static uint8_t bytes[HGRPC_FRAME_HEAD + HGRPC_PAYLOAD_LONGEST];
    const uint8_t header[HGRPC_FRAME_HEAD] = {
        (uint8_t)(length & 255), (uint8_t)(length >> 8 & 255), (uint8_t)(length >> 16),
        (uint8_t)(id & 255), (uint8_t)(id >> 8), (uint8_t)stream, (uint8_t)stream_flags,
        (uint8_t)last};
    memcpy(bytes, header, sizeof header);
    if (length > HGRPC_PAYLOAD_LONGEST)
        return feed_all(bytes, sizeof header);
    memcpy(bytes + sizeof header, payload, length);
    return feed_all(bytes, sizeof header + length);
}

/* T1, cut into pieces of this size, the last one as long as it is. */
static void first_trace(size_t piece)
{
    const uint8_t *input = (const uint8_t *)T1;
    size_t at, n, written = 0, length = sizeof T1 - 1;
    hgrpc_channel_fresh(&b.state);
    for (at = 0; at < length; at += n) {
        hgrpc_fed fed;
        n = length - at < piece ? length - at : piece;
        fed = feed(input + at, n);
        IS(fed.number, 0);
        IS(fed.taken, n);
        written += fed.written;
    }
    IS(written, sizeof RECORD - 1);
    IS(memcmp(b.out, RECORD, sizeof RECORD - 1), 0);
    IS(hgrpc_channel_finish(&b.state, 1), 0);
    IS(hgrpc_channel_finish(&b.state, 1), 4);
}

/* Fresh, feed and finish where they refuse the call: nothing is changed. */
static void refused_calls(void)
{
    static board before;
    size_t taken = 9, written = 9;
    hgrpc_channel_fresh(&b.state);
    before = b;
    IS(hgrpc_fresh(b.state.bytes, HGRPC_STATE - 1), 3);
    IS(hgrpc_channel_feed(&b.state, b.work, HGRPC_WORK - 1, BYTES(T1), b.out, HGRPC_OUTPUT).number, 2);
    IS(hgrpc_channel_feed(&b.state, b.work, HGRPC_WORK, BYTES(T1), b.out, HGRPC_OUTPUT - 1).number, 1);
    IS(hgrpc_feed(b.state.bytes, HGRPC_STATE - 1, b.work, sizeof b.work, BYTES(T1), b.out,
                  sizeof b.out, &taken, &written), 3);
    IS(taken, 0);
    IS(written, 0);
    IS(hgrpc_finish(b.state.bytes, HGRPC_STATE - 1, 1), 3);
    IS(memcmp(&b, &before, sizeof b), 0);
    memset(&b.state, 0xff, sizeof b.state);
    before = b;
    IS(feed(BYTES(T1)).number, 3);
    IS(hgrpc_channel_finish(&b.state, 1), 3);
    IS(memcmp(&b, &before, sizeof b), 0);
}

/* Two commands in one input, with output for one record: 5, and the rest is
 * offered again. */
static void stopped_for_output(void)
{
    static const char second[] = "\x10\0\0\3\0\1\0\x11" COMMAND;
    uint8_t input[sizeof T1 - 1 + sizeof second - 1];
    hgrpc_fed fed;
    memcpy(input, T1, sizeof T1 - 1);
    memcpy(input + sizeof T1 - 1, second, sizeof second - 1);
    hgrpc_channel_fresh(&b.state);
    fed = feed(input, sizeof input);
    IS(fed.number, 5);
    IS(fed.taken, sizeof input - 1);
    IS(fed.written, sizeof RECORD - 1);
    fed = feed(input + fed.taken, sizeof input - fed.taken);
    IS(fed.number, 0);
    IS(fed.written, sizeof RECORD - 1);
    IS(b.out[6], 3);
    IS(feed(input, 0).number, 0);
}

/* Request 1 waits for data, request 3 is collecting, stream 1 is open. */
static void busy(void)
{
    hgrpc_channel_fresh(&b.state);
    IS(frame(1, 1, 1, 0x19, BYTES(COMMAND)), 0);
    IS(frame(3, 1, 0, 0x15, BYTES("\xa2")), 0);
    IS(hgrpc_channel_finish(&b.state, 3), 4);
}

/* A busy channel is dead by this number: each call answers it, and as many requests are
 * active as before. With 20 that is all eight. */
static void refused_with(uint32_t number, uint32_t answer)
{
    hgrpc_fed fed;
    size_t count = 99;
    IS(answer, number);
    fed = feed(BYTES(T1));
    IS(fed.number, number);
    IS(fed.taken, 0);
    IS(hgrpc_channel_finish(&b.state, 1), number);
    IS(hgrpc_channel_active(&b.state, &count), 0);
    IS(count, number == 20 ? HGRPC_REQUESTS : 2);
    busy();
}

static void refused_headers(void)
{
    static const uint8_t none[1] = {0};
    busy();
    refused_with(11, frame(5, 1, 0, 0x11, none, HGRPC_PAYLOAD_LONGEST + 1));
    refused_with(12, frame(2, 1, 0, 0x11, none, 0));
    refused_with(13, frame(5, 2, 0, 0x11, none, 0));
    refused_with(14, frame(5, 1, 8, 0x11, none, 0));
    refused_with(15, frame(5, 1, 0, 0x31, none, 0));
    refused_with(16, frame(5, 3, 0, 0x11, none, 0));
    refused_with(17, frame(5, 1, 1, 0x11, none, 0));
    refused_with(18, frame(5, 1, 0, 0x13, none, 0));
    refused_with(19, frame(1, 1, 0, 0x11, none, 0));
    refused_with(21, frame(5, 1, 0, 0x12, none, 0));
    refused_with(22, frame(3, 1, 0, 0x1a, none, 0));
    refused_with(27, frame(5, 1, 0, 0x22, none, 0));
}

static void refused_payloads(void)
{
    static const uint8_t longer[HGRPC_COMMAND_LONGEST + 1] = {0};
    unsigned id;
    refused_with(23, frame(5, 1, 0, 0x11, longer, sizeof longer));
    refused_with(24, frame(3, 1, 0, 0x12, BYTES("\xff")));
    refused_with(25, frame(5, 1, 0, 0x11, BYTES("\xa0")));
    refused_with(26, frame(5, 1, 0, 0x11, BYTES("\xa2" NAME NAME)));
    refused_with(28, frame(5, 1, 0, 0x92, BYTES("\x48" "identity")));
    refused_with(29, frame(5, 3, 1, 0x92, BYTES("\x44" "gzip")));
    for (id = 5; id <= 15; id += 2)
        IS(frame(id, 1, 0, 0x11, BYTES(COMMAND)), 0);
    refused_with(20, frame(17, 1, 0, 0x11, BYTES(COMMAND)));
}

/* So many requests are active, and the row has these entries first, an id and a phase
 * each, and then free ones. */
static void is_shown(int line, size_t wanted, size_t length, const unsigned first[][2])
{
    hgrpc_entry row[HGRPC_REQUESTS];
    size_t slot, count = 99;
    memset(row, 0xa5, sizeof row);
    is(line, hgrpc_channel_active(&b.state, &count), 0);
    is(line, (long long)count, (long long)wanted);
    is(line, hgrpc_channel_row(&b.state, row), 0);
    for (slot = 0; slot < HGRPC_REQUESTS; slot++) {
        is(line, row[slot].id, slot < length ? first[slot][0] : 0);
        is(line, row[slot].phase, slot < length ? first[slot][1] : HGRPC_PHASE_FREE);
    }
}
#define SHOWN(count, first) is_shown(__LINE__, count, sizeof(first) / sizeof *(first), first)

/* The count and the row after each call, from a fresh channel on: ids of two bytes, and
 * a free slot before one that is not. */
static void shown(void)
{
    static const unsigned one[][2] = {{0x0201, HGRPC_PHASE_COLLECTING}};
    static const unsigned two[][2] = {{0x0201, HGRPC_PHASE_RUNNING}, {0xffff, HGRPC_PHASE_WAITING}};
    static const unsigned finished[][2] = {{0, HGRPC_PHASE_FREE}, {0xffff, HGRPC_PHASE_WAITING}};
    static const unsigned again[][2] = {{5, HGRPC_PHASE_RUNNING}, {0xffff, HGRPC_PHASE_RUNNING}};
    hgrpc_channel_fresh(&b.state);
    is_shown(__LINE__, 0, 0, NULL);
    IS(frame(0x0201, 1, 1, 0x15, BYTES("\xa2")), 0);
    SHOWN(1, one);
    IS(frame(0x0201, 1, 0, 0x12, BYTES(NAME "\x44" "args\xa0")), 0);
    IS(frame(0xffff, 1, 0, 0x19, BYTES(COMMAND)), 0);
    SHOWN(2, two);
    IS(hgrpc_channel_finish(&b.state, 0xfffd), 4);
    SHOWN(2, two);
    IS(hgrpc_channel_finish(&b.state, 0x0201), 0);
    SHOWN(1, finished);
    IS(frame(0xffff, 1, 0, 0x22, BYTES("")), 0);
    IS(frame(5, 1, 0, 0x11, BYTES(COMMAND)), 0);
    SHOWN(2, again);
    IS(frame(5, 1, 0, 0x11, BYTES(COMMAND)), 19);
    SHOWN(2, again);
}

/* Request 1 is finished between two of its data frames. What comes of it then gives no
 * record, and the last of it frees the slot, which the next request takes. */
static void drained(void)
{
    static const unsigned drains[][2] = {{1, HGRPC_PHASE_DRAINING}, {3, HGRPC_PHASE_COLLECTING}};
    static const unsigned freed[][2] = {{0, HGRPC_PHASE_FREE}, {3, HGRPC_PHASE_COLLECTING}};
    static const unsigned again[][2] = {{1, HGRPC_PHASE_RUNNING}, {3, HGRPC_PHASE_COLLECTING}};
    busy();
    IS(frame(1, 1, 0, 0x21, BYTES("slow")), 0);
    IS(latest.written, HGRPC_RECORD_HEAD + 4);
    IS(hgrpc_channel_finish(&b.state, 1), 0);
    SHOWN(2, drains);
    IS(hgrpc_channel_finish(&b.state, 1), 4);
    IS(frame(1, 1, 0, 0x21, BYTES("er and")), 0);
    IS(latest.written, 0);
    SHOWN(2, drains);
    IS(frame(1, 1, 0, 0x22, BYTES("")), 0);
    IS(latest.written, 0);
    SHOWN(1, freed);
    IS(hgrpc_channel_finish(&b.state, 1), 4);
    IS(frame(1, 1, 0, 0x11, BYTES(COMMAND)), 0);
    IS(latest.written, sizeof RECORD - 1);
    SHOWN(2, again);
    IS(hgrpc_channel_finish(&b.state, 1), 0);
    SHOWN(1, freed);
}

/* A drained frame in two pieces with the finish between them, behind a command whose
 * record takes the room for a longest one: 5 before its last byte. */
static void drained_in_pieces(void)
{
    static const char input[] = "\x10\0\0\5\0\1\0\x11" COMMAND "\2\0\0\1\0\1\0\x22hi";
    const uint8_t *bytes = (const uint8_t *)input;
    size_t count = 99;
    busy();
    IS(feed(bytes, sizeof input - 1).number, 5);
    IS(latest.taken, sizeof input - 2);
    IS(latest.written, sizeof RECORD - 1);
    IS(hgrpc_channel_finish(&b.state, 1), 0);
    IS(feed(bytes + sizeof input - 2, 1).number, 0);
    IS(latest.written, 0);
    IS(hgrpc_channel_active(&b.state, &count), 0);
    IS(count, 2);
    IS(hgrpc_channel_finish(&b.state, 1), 4);
}

/* A request that drains is active, and one that has drained is not. */
static void refused_drains(void)
{
    static const uint8_t none[1] = {0};
    busy();
    IS(hgrpc_channel_finish(&b.state, 1), 0);
    refused_with(19, frame(1, 1, 0, 0x11, BYTES(COMMAND)));
    IS(hgrpc_channel_finish(&b.state, 1), 0);
    refused_with(21, frame(1, 1, 0, 0x1a, BYTES(COMMAND)));
    IS(hgrpc_channel_finish(&b.state, 1), 0);
    IS(frame(1, 1, 2, 0x21, none, 0), 0);
    refused_with(16, frame(1, 1, 0, 0x22, none, 0));
    IS(hgrpc_channel_finish(&b.state, 1), 0);
    IS(frame(1, 1, 0, 0x22, none, 0), 0);
    IS(frame(1, 1, 0, 0x22, none, 0), 27);
}

/* Rows of every length, of a live channel and of a dead one: 9 and nothing changed, or
 * the entries and the rest as it was. */
static void row_lengths(void)
{
    static const uint8_t entries[HGRPC_ROW] = {1, 0, HGRPC_PHASE_WAITING, 3, 0, HGRPC_PHASE_COLLECTING};
    uint8_t row[2 * HGRPC_ROW], wanted[2 * HGRPC_ROW];
    size_t length, dead;
    busy();
    for (dead = 0; dead < 2; dead++) {
        if (dead)
            IS(frame(2, 1, 0, 0x11, BYTES(COMMAND)), 12);
        for (length = 0; length <= sizeof row; length++) {
            memset(row, 0xa5, sizeof row);
            memset(wanted, 0xa5, sizeof wanted);
            if (length >= HGRPC_ROW)
                memcpy(wanted, entries, sizeof entries);
            IS(hgrpc_row(b.state.bytes, HGRPC_STATE, row, length), length < HGRPC_ROW ? 9 : 0);
            IS(memcmp(row, wanted, sizeof row), 0);
        }
    }
}

/* A busy channel with each wrong count, and bytes that are no state: 3, before 9, and
 * nothing is changed. */
static void not_shown(void)
{
    static board before;
    hgrpc_entry row[HGRPC_REQUESTS];
    uint8_t bytes[HGRPC_ROW], kept[sizeof row];
    size_t count, told = 9;
    busy();
    memset(row, 0xa5, sizeof row);
    memset(kept, 0xa5, sizeof kept);
    memset(bytes, 0xa5, sizeof bytes);
    for (count = 0; count <= 255; count++) {
        if (count == 2)
            continue;
        b.state.bytes[HGRPC_STATE - 1] = (uint8_t)count;
        before = b;
        IS(hgrpc_channel_active(&b.state, &told), 3);
        IS(told, 0);
        IS(hgrpc_channel_row(&b.state, row), 3);
        IS(memcmp(row, kept, sizeof row), 0);
        IS(hgrpc_row(b.state.bytes, HGRPC_STATE, bytes, HGRPC_ROW - 1), 3);
        IS(hgrpc_channel_finish(&b.state, 1), 3);
        IS(feed(BYTES(T1)).number, 3);
        IS(memcmp(&b, &before, sizeof b), 0);
        told = 9;
    }
    busy();
    IS(hgrpc_active(b.state.bytes, HGRPC_STATE - 1, &told), 3);
    IS(told, 0);
    IS(hgrpc_row(b.state.bytes, HGRPC_STATE - 1, bytes, HGRPC_ROW), 3);
    IS(hgrpc_row(b.state.bytes, HGRPC_STATE - 1, bytes, 0), 3);
    IS(memcmp(bytes, kept, sizeof bytes), 0);
}

/* Settings, data in two frames, and a finish: what is accepted. */
static void accepted(void)
{
    static hgrpc_record record;
    size_t place = 0;
    busy();
    IS(frame(5, 3, 3, 0x92, BYTES("\x48" "identity")), 0);
    IS(frame(1, 1, 0, 0x21, BYTES("slow")), 0);
    IS(hgrpc_channel_finish(&b.state, 5), 4);
    IS(frame(1, 1, 0, 0x22, BYTES("er")), 0);
    IS(hgrpc_next_record(b.out, HGRPC_RECORD_HEAD + 2, &place, &record), 1);
    IS(record.kind, HGRPC_KIND_DATA);
    IS(record.request, 1);
    IS(record.bit, 1);
    IS(record.loose, 0);
    IS(record.length, 2);
    IS(memcmp(record.bytes, "er", 2), 0);
    IS(hgrpc_record_runs(&record), 1);
    IS(hgrpc_channel_finish(&b.state, 1), 0);
    IS(frame(3, 1, 2, 0x12, BYTES(NAME "\x44" "args\xa0")), 0);
    IS(hgrpc_channel_finish(&b.state, 3), 0);
}

/* The longest data frame, into an output of the least length: its record fills it, and is the longest one. */
static void longest_frame(void)
{
    static uint8_t data[HGRPC_PAYLOAD_LONGEST];
    hgrpc_record record;
    size_t i, place = 0;
    for (i = 0; i < sizeof data; i++)
        data[i] = (uint8_t)(i ^ i >> 8);
    busy();
    IS(frame(1, 1, 0, 0x22, data, sizeof data), 0);
    IS(memcmp(b.out, "\2\0\1\0\2\0\1\0\1", HGRPC_RECORD_HEAD), 0);
    IS(hgrpc_next_record(b.out, HGRPC_OUTPUT - 1, &place, &record), 0);
    IS(place, 0);
    IS(hgrpc_next_record(b.out, HGRPC_OUTPUT, &place, &record), 1);
    IS(place, HGRPC_OUTPUT);
    IS(record.kind, HGRPC_KIND_DATA);
    IS(record.request, 1);
    IS(record.bit, 1);
    IS(record.length, sizeof data);
    IS(memcmp(record.bytes, data, sizeof data), 0);
    IS(hgrpc_next_record(b.out, HGRPC_OUTPUT, &place, &record), 0);
    IS(hgrpc_channel_finish(&b.state, 1), 0);
}

/* Two records, in a buffer that ends where the count says, for every count. */
static void cut_records(void)
{
    size_t one = sizeof RECORD - 1, count;
    for (count = 0; count <= 2 * one; count++) {
        uint8_t *exact = (uint8_t *)malloc(count ? count : 1);
        hgrpc_record record;
        size_t place = 0, i, found = 0;
        IS(exact != NULL, 1);
        for (i = 0; i < count; i++)
            exact[i] = (uint8_t)RECORD[i % one];
        while (hgrpc_next_record(exact, count, &place, &record)) {
            found++;
            IS(place, found * one);
            IS(record.length, sizeof COMMAND - 1);
            IS(hgrpc_record_runs(&record), 1);
        }
        IS(found, count / one);
        place = count + 1;
        IS(hgrpc_next_record(exact, count, &place, &record), 0);
        free(exact);
    }
}

static void lookups(void)
{
    static const char command[] = "\xa2" NAME "\x44" "args\xa3" "\x41" "a" "\x20" "\x41" "b"
        "\x41" "x" "\x41" "c" "\x3b\x80\0\0\0\0\0\0\0";
    size_t at, size;
    int64_t value = 9;
    IS(hgrpc_check(BYTES(command)), 0);
    IS(hgrpc_check(BYTES("")), 24);
    IS(hgrpc_check(BYTES("\xa0")), 25);
    IS(hgrpc_check(BYTES("\xa2" NAME NAME)), 26);
    IS(hgrpc_name(BYTES(command), &at, &size), 0);
    IS(memcmp(command + at, "set", 3), 0);
    IS(size, 3);
    IS(hgrpc_name(BYTES("\xa0"), &at, &size), 25);
    IS(at + size, 0);
    IS(hgrpc_argument(BYTES(command), BYTES("b"), &at, &size), 0);
    IS(memcmp(command + at, "\x41x", 2), 0);
    IS(size, 2);
    IS(hgrpc_argument(BYTES(command), BYTES(""), &at, &size), 6);
    IS(at + size, 0);
    IS(hgrpc_integer(BYTES(command), BYTES("a"), &value), 0);
    IS(value, -1);
    IS(hgrpc_integer(BYTES(command), BYTES("d"), &value), 6);
    IS(hgrpc_integer(BYTES(command), BYTES("b"), &value), 7);
    IS(hgrpc_integer(BYTES(command), BYTES("c"), &value), 8);
    IS(hgrpc_integer(BYTES(""), BYTES("a"), &value), 24);
    IS(value, 0);
}

#define ARGUMENTS(name, count) "\xa2\x44" "name" name "\x44" "args" count
#define COIL "\x44" "coil"
#define ON "\x42" "on"
#define TEXT "\x44" "text"
#define SET "\x43" "set"
#define LABEL "\x45" "label"
#define OFF "\xa1\x44" "name" "\x43" "off"

static void counts(void)
{
    IS(hgrpc_argument_count(BYTES(ARGUMENTS(SET, "\xa2") COIL "\x03" ON "\xf5")), 2);
    IS(hgrpc_argument_count(BYTES(COMMAND)), 0);
    IS(hgrpc_argument_count(BYTES(OFF)), 0);
    IS(hgrpc_argument_count(BYTES("")), 0);
    IS(hgrpc_argument_count(BYTES(ARGUMENTS(SET, "\xa2") ON "\xf5" ON "\xf5")), 0);
}

#define LOOSE "\xb8\2" NAME "\x44" "args\xa0"

static void marks(void)
{
    IS(hgrpc_loose(BYTES(COMMAND)), 0);
    IS(hgrpc_loose(BYTES(LOOSE)), 1);
    IS(hgrpc_loose(BYTES(ARGUMENTS(SET, "\xa1") COIL "\x18\x17")), 1);
    IS(hgrpc_loose(BYTES(ARGUMENTS(SET, "\xa1") COIL "\x18\x18")), 0);
    IS(hgrpc_loose(BYTES(ARGUMENTS(SET, "\xa1") COIL "\x42\x18\x17")), 0);
    IS(hgrpc_loose(BYTES(ARGUMENTS(SET, "\xa1") COIL "\xd9\1\2\x80")), 0);
    IS(hgrpc_loose(BYTES(ARGUMENTS(SET, "\xa1") COIL "\xda\0\0\1\2\x80")), 1);
    IS(hgrpc_loose(BYTES("")), 0);
    IS(hgrpc_loose(BYTES("\xb8\2" NAME NAME)), 0);
}

/* A command, shortest or loose, without data and with data: the record's two fields, and
 * whether the request runs. */
static void marked_records(void)
{
    unsigned row;
    for (row = 0; row < 4; row++) {
        unsigned data = row & 1, loose = row >> 1;
        const char *command = loose ? LOOSE : COMMAND;
        size_t length = loose ? sizeof LOOSE - 1 : sizeof COMMAND - 1, place = 0;
        hgrpc_record record;
        hgrpc_channel_fresh(&b.state);
        IS(frame(1, 1, 1, data ? 0x19 : 0x11, (const uint8_t *)command, length), 0);
        IS(b.out[8], row);
        IS(hgrpc_next_record(b.out, HGRPC_RECORD_HEAD + length, &place, &record), 1);
        IS(record.kind, HGRPC_KIND_COMMAND);
        IS(record.bit, data);
        IS(record.loose, loose);
        IS(record.length, length);
        IS(memcmp(record.bytes, command, length), 0);
        IS(hgrpc_record_runs(&record), !data);
        IS(hgrpc_channel_finish(&b.state, 1), 0);
        IS(hgrpc_channel_active(&b.state, &place), 0);
        IS(place, data);
    }
}

/* The board's coil is on or off, and has this label. */
static void is_coil(int line, const hgrpc_board *board, size_t number, bool on, const char *label)
{
    hgrpc_coil coil;
    is(line, hgrpc_coils_look(board, number, &coil), 0);
    is(line, coil.on, on);
    is(line, (long long)coil.size, (long long)strlen(label));
    is(line, memcmp(coil.label, label, strlen(label)), 0);
}
#define COIL_IS(number, on, label) is_coil(__LINE__, &board, number, on, label)

/* Switches, labels and off, and what each leaves of the rest. */
static void coils(void)
{
    static hgrpc_board board;
    static const uint8_t nothing[HGRPC_BOARD] = {0};
    static const uint8_t short_label[18] = "\1\5north";
    hgrpc_coil coil;
    memset(&board, 0xff, sizeof board);
    hgrpc_coils_first(&board);
    IS(memcmp(board.bytes, nothing, sizeof nothing), 0);
    COIL_IS(0, false, "");
    IS(hgrpc_coils_apply(&board, BYTES(ARGUMENTS(SET, "\xa2") COIL "\x0f" ON "\xf5")), 0);
    IS(hgrpc_coils_apply(&board, BYTES(ARGUMENTS(SET, "\xa2") ON "\xf5" COIL "\x18\0")), 0);
    IS(hgrpc_coils_apply(&board, BYTES(ARGUMENTS(LABEL, "\xa2") COIL "\x0f" TEXT "\x50" "sixteen bytes on")), 0);
    COIL_IS(15, true, "sixteen bytes on");
    COIL_IS(0, true, "");
    IS(hgrpc_coils_apply(&board, BYTES(ARGUMENTS(LABEL, "\xa2") COIL "\x0f" TEXT "\x58\5" "north")), 0);
    COIL_IS(15, true, "north");
    IS(memcmp(board.bytes + 15 * 18, short_label, sizeof short_label), 0);
    IS(hgrpc_coils_apply(&board, BYTES(ARGUMENTS(SET, "\xa2") COIL "\0" ON "\xf4")), 0);
    COIL_IS(0, false, "");
    IS(hgrpc_coils_apply(&board, BYTES(OFF)), 0);
    COIL_IS(15, false, "north");
    IS(hgrpc_coils_look(&board, HGRPC_COILS, &coil), 42);
    IS(coil.on, false);
    IS(coil.size, 0);
}

/* Each command has a reason for its number and for those above it; the board stays. */
static void refused_commands(void)
{
    static hgrpc_board board, before;
    static const struct {
        uint32_t number;
        const char *bytes;
        size_t length;
    } refused[] = {
#define REFUSED_COMMAND(number, text) {number, text, sizeof(text) - 1}
        REFUSED_COMMAND(24, ""),
        REFUSED_COMMAND(24, ARGUMENTS("\x41x", "\xa1") COIL "\x10" "\0"),
        REFUSED_COMMAND(25, "\xa1\x44" "args\xa1" COIL "\x10"),
        REFUSED_COMMAND(26, ARGUMENTS("\x41x", "\xa2") COIL "\x10" COIL "\x10"),
        REFUSED_COMMAND(40, ARGUMENTS("\x41x", "\xa1") COIL "\x10"),
        REFUSED_COMMAND(41, ARGUMENTS(SET, "\xa1") COIL "\x10"),
        REFUSED_COMMAND(41, ARGUMENTS(SET, "\xa2") COIL "\x10" ON "\xf6"),
        REFUSED_COMMAND(41, ARGUMENTS(SET, "\xa3") COIL "\x10" ON "\xf5" TEXT "\x40"),
        REFUSED_COMMAND(41, ARGUMENTS("\x43" "off", "\xa1") COIL "\x10"),
        REFUSED_COMMAND(42, ARGUMENTS(SET, "\xa2") COIL "\x10" ON "\xf5"),
        REFUSED_COMMAND(42, ARGUMENTS(SET, "\xa2") COIL "\x20" ON "\xf5"),
        REFUSED_COMMAND(42, ARGUMENTS(SET, "\xa2") COIL "\x3b\xff\xff\xff\xff\xff\xff\xff\xff" ON "\xf5"),
        REFUSED_COMMAND(42, ARGUMENTS(LABEL, "\xa2") COIL "\x10" TEXT "\x51" "seventeen bytes, "),
        REFUSED_COMMAND(43, ARGUMENTS(LABEL, "\xa2") COIL "\x0f" TEXT "\x51" "seventeen bytes, "),
    };
    size_t i;
    hgrpc_coils_first(&board);
    IS(hgrpc_coils_apply(&board, BYTES(ARGUMENTS(LABEL, "\xa2") COIL "\x0f" TEXT "\x45" "north")), 0);
    before = board;
    for (i = 0; i < sizeof refused / sizeof *refused; i++) {
        IS(hgrpc_coils_apply(&board, (const uint8_t *)refused[i].bytes, refused[i].length), refused[i].number);
        IS(memcmp(&board, &before, sizeof board), 0);
    }
}

/* Bytes that are no board: 3 before all others, and nothing is changed. */
static void no_board(void)
{
    static uint8_t bytes[HGRPC_BOARD + 1], before[HGRPC_BOARD + 1];
    static const size_t places[] = {0, 15 * 18, 1, 15 * 18 + 1};
    size_t i, at, size;
    bool on;
    memset(before, 1, sizeof before);
    for (i = 0; i < 6; i++) {
        size_t length = i == 4 ? HGRPC_BOARD - 1 : i == 5 ? HGRPC_BOARD + 1 : HGRPC_BOARD;
        memcpy(bytes, before, sizeof bytes);
        if (i < 4)
            bytes[places[i]] = i < 2 ? 2 : 17;
        at = size = 9;
        on = true;
        IS(hgrpc_board_apply(bytes, length, BYTES("")), 3);
        IS(hgrpc_board_apply(bytes, length, BYTES(OFF)), 3);
        IS(hgrpc_board_switch(bytes, length, HGRPC_COILS, &on), 3);
        IS(on, false);
        IS(hgrpc_board_label(bytes, length, HGRPC_COILS, &at, &size), 3);
        IS(at + size, 0);
        IS(hgrpc_board_first(bytes, length), i < 4 ? 0 : 3);
        IS(memcmp(bytes, before, sizeof bytes) == 0, i >= 4);
    }
    IS(hgrpc_board_switch(before, HGRPC_BOARD, 15, &on), 0);
    IS(on, true);
    IS(hgrpc_board_label(before, HGRPC_BOARD, 15, &at, &size), 0);
    IS(at, 15 * 18 + 2);
    IS(size, 1);
}

/* What was asked for is in `b.out`, whose other bytes are all 0xa5. */
static void is_sent(int line, uint32_t number, size_t written, const char *wanted, size_t length)
{
    size_t i;
    is(line, number, 0);
    is(line, (long long)written, (long long)length);
    is(line, memcmp(b.out, wanted, length), 0);
    for (i = written; i < sizeof b.out; i++)
        is(line, b.out[i], 0xa5);
    memset(b.out, 0xa5, sizeof b.out);
}
#define SENT(call, wanted) \
    do { \
        uint32_t number = call; \
        is_sent(__LINE__, number, written, wanted, sizeof(wanted) - 1); \
    } while (0)

/* The request is refused with this number, and no byte of `b.out` is written. */
static void is_refused(int line, uint32_t wanted, uint32_t number, size_t written)
{
    size_t i;
    is(line, number, wanted);
    is(line, (long long)written, 0);
    for (i = 0; i < sizeof b.out; i++)
        is(line, b.out[i], 0xa5);
}
#define REFUSED(wanted, call) \
    do { \
        uint32_t number; \
        written = 9; \
        number = call; \
        is_refused(__LINE__, wanted, number, written); \
    } while (0)

#define NO_DATA false, BYTES("")
#define OUT(length) b.out, length, &written

static void sent(void)
{
    size_t written = 9;
    memset(b.out, 0xa5, sizeof b.out);
    SENT(hgrpc_send(BYTES("set"), BYTES(""), 0, 1, 1, true, false, HGRPC_SEND_SIZE_LONGEST, NO_DATA, OUT(24)), T1);
    SENT(hgrpc_send(BYTES("set"), BYTES(""), 0, 1, 1, true, false, 16, NO_DATA, OUT(99)), T1);
    SENT(hgrpc_send(BYTES("set"), BYTES(""), 0, 1, 1, true, false, 16, false, BYTES("unread"), OUT(99)), T1);
    /* Frames of eight bytes; data that fills one, empty data, and data of nine. */
    SENT(hgrpc_send(BYTES("set"), BYTES(""), 0, 0x0201, 3, true, true, 8, true, BYTES("ninebyte"), OUT(48)),
         "\x8\0\0\1\2\3\1\x1d" "\xa2\x44" "name\x43" "s" "\x8\0\0\1\2\3\0\x1a" "et\x44" "args\xa0"
         "\x8\0\0\1\2\3\2\x22" "ninebyte");
    SENT(hgrpc_send(BYTES("set"), BYTES(""), 0, 1, 1, false, true, 16, true, BYTES(""), OUT(32)),
         "\x10\0\0\1\0\1\0\x19" COMMAND "\0\0\0\1\0\1\2\x22");
    SENT(hgrpc_send(BYTES("set"), BYTES("\x41k\x05"), 1, 1, 1, false, false, 19, true, BYTES("ninebytes"), OUT(99)),
         "\x13\0\0\1\0\1\0\x19" "\xa2" NAME "\x44" "args\xa1\x41k\x05"
         "\x9\0\0\1\0\1\0\x22" "ninebytes");
}

/* Each request has a reason for its number and for those above it. */
static void refused_requests(void)
{
    static uint8_t pairs[5 + HGRPC_COMMAND_LONGEST] = "\x41k\x59\x8\0";
    static const uint64_t most = ~(uint64_t)0;
    size_t written;
    REFUSED(50, hgrpc_send(BYTES(""), BYTES(""), 1, 2, 1, true, true, 0, NO_DATA, OUT(0)));
    REFUSED(50, hgrpc_send(BYTES(""), BYTES(""), 1, 1, 2, true, true, 0, NO_DATA, OUT(0)));
    REFUSED(51, hgrpc_send(BYTES(""), BYTES(""), 1, 1, 1, true, true, 0, NO_DATA, OUT(0)));
    REFUSED(51, hgrpc_send(BYTES(""), BYTES(""), 1, 1, 1, true, true, HGRPC_SEND_SIZE_LONGEST + 1, NO_DATA, OUT(0)));
    REFUSED(51, hgrpc_send(BYTES(""), BYTES(""), 1, 1, 1, true, true, HGRPC_PAYLOAD_LONGEST, NO_DATA, OUT(0)));
    REFUSED(51, hgrpc_send(BYTES("a"), BYTES(""), 0, 1, 1, true, true, SIZE_MAX, NO_DATA, OUT(99)));
    REFUSED(52, hgrpc_send(BYTES(""), BYTES(""), 0, 1, 1, true, true, 1, NO_DATA, OUT(0)));
    REFUSED(52, hgrpc_send(BYTES("a"), pairs, sizeof pairs, 2, 1, 1, true, true, 1, NO_DATA, OUT(0)));
    REFUSED(52, hgrpc_send(BYTES("a"), BYTES(""), most, 1, 1, true, true, 1, NO_DATA, OUT(99)));
    REFUSED(52, hgrpc_send(BYTES("a"), BYTES("\x41k\x05"), 0, 1, 1, true, true, 1, NO_DATA, OUT(99)));
    REFUSED(53, hgrpc_send(BYTES("a"), pairs, sizeof pairs, 1, 1, 1, true, true, 1, NO_DATA, OUT(0)));
    REFUSED(54, hgrpc_send(BYTES("a"), BYTES(""), 0, 1, 1, true, true, 1, NO_DATA, OUT(0)));
    REFUSED(54, hgrpc_send(BYTES("set"), BYTES(""), 0, 1, 1, true, true, HGRPC_SEND_SIZE_LONGEST, NO_DATA, OUT(23)));
    REFUSED(54, hgrpc_send(BYTES("set"), BYTES(""), 0, 1, 1, true, true, 16, true, BYTES(""), OUT(31)));
}

/* The longest command in frames of every size, with data: what hgrpc_send_most
 * asks for is just enough. */
static void most_output(void)
{
    static uint8_t frames[9 * (HGRPC_COMMAND_LONGEST + 99)]; /* frames of one byte */
    static uint8_t pairs[HGRPC_COMMAND_LONGEST - 16] = "\x41k\x59\x7\xeb";
    static const uint8_t data[99] = {0};
    const size_t largest = HGRPC_SEND_SIZE_LONGEST, command = HGRPC_COMMAND_LONGEST + HGRPC_FRAME_HEAD;
    size_t size, written;
    for (size = 1; size <= HGRPC_SEND_SIZE_LONGEST; size++) {
        size_t most = hgrpc_send_most(size, true, sizeof data);
        IS(hgrpc_send(BYTES("set"), pairs, sizeof pairs, 1, 1, 1, true, true, size, true, data, sizeof data,
                      frames, most, &written), 0);
        IS(written, most);
        IS(hgrpc_send(BYTES("set"), pairs, sizeof pairs, 1, 1, 1, true, true, size, true, data, sizeof data,
                      frames, most - 1, &written), 54);
        most = hgrpc_send_most(size, false, sizeof data);
        IS(hgrpc_send(BYTES("set"), pairs, sizeof pairs, 1, 1, 1, true, true, size, false, data, sizeof data,
                      frames, most, &written), 0);
        IS(written, most);
    }
    IS(hgrpc_send_most(largest, false, 0), command);
    IS(hgrpc_send_most(largest, true, 0), command + HGRPC_FRAME_HEAD);
    IS(hgrpc_send_most(largest, true, largest), command + largest + HGRPC_FRAME_HEAD);
    IS(hgrpc_send_most(largest, true, largest + 1), command + largest + 1 + 2 * HGRPC_FRAME_HEAD);
    IS(hgrpc_send_most(0, true, 0), 0);
    IS(hgrpc_send_most(1, true, SIZE_MAX / 9 + 1), 0);
    IS(hgrpc_send_most(1, true, SIZE_MAX / 9), 0);
    IS(hgrpc_send_most(largest, true, SIZE_MAX), 0);
    IS(hgrpc_send_most(SIZE_MAX, true, SIZE_MAX - 8), 0);
}

/* What is sent is received as that very command and data. */
static void sent_and_received(void)
{
    static uint8_t line[999];
    size_t written, place = 0;
    hgrpc_record record;
    hgrpc_fed fed;
    IS(hgrpc_send(BYTES("set"), BYTES("\x41k\x05"), 1, 7, 9, true, true, 5, true, BYTES("hi"), line,
                  sizeof line, &written), 0);
    hgrpc_channel_fresh(&b.state);
    fed = hgrpc_channel_feed(&b.state, b.work, sizeof b.work, line, written, b.out, sizeof b.out);
    IS(fed.number, 0);
    IS(fed.taken, written);
    IS(hgrpc_next_record(b.out, fed.written, &place, &record), 1);
    IS(record.kind, HGRPC_KIND_COMMAND);
    IS(record.request, 7);
    IS(record.bit, 1);
    IS(record.loose, 0);
    IS(record.length, 19);
    IS(memcmp(record.bytes, "\xa2" NAME "\x44" "args\xa1\x41k\x05", 19), 0);
    IS(hgrpc_next_record(b.out, fed.written, &place, &record), 1);
    IS(record.kind, HGRPC_KIND_DATA);
    IS(record.bit, 1);
    IS(record.length, 2);
    IS(memcmp(record.bytes, "hi", 2), 0);
    IS(hgrpc_next_record(b.out, fed.written, &place, &record), 0);
    IS(hgrpc_channel_finish(&b.state, 7), 0);
}

#define OLD_RECORD "\x13\0\1\0\1\0\0" COMMAND
#define OLD_DATA "\5\0\2\0\1\0\1hi"
#define OLD_LOG OLD_RECORD OLD_DATA "\0\0\xff\xfe"
#define NEW_LOG RECORD "\5\0\0\0\2\0\1\0\1hi" "\0\0\0\0\xff\xfe"

/* Logs that are converted: three records, one and none; just enough output, and more. */
static void converted(void)
{
    size_t written = 9;
    memset(b.out, 0xa5, sizeof b.out);
    SENT(hgrpc_convert(BYTES(OLD_LOG), OUT(sizeof NEW_LOG - 1)), NEW_LOG);
    SENT(hgrpc_convert(BYTES(OLD_LOG), OUT(sizeof b.out)), NEW_LOG);
    SENT(hgrpc_convert(BYTES(OLD_RECORD), OUT(sizeof RECORD - 1)), RECORD);
    written = 9;
    SENT(hgrpc_convert(BYTES(""), OUT(0)), "");
    SENT(hgrpc_convert(BYTES(""), OUT(99)), "");
    REFUSED(71, hgrpc_convert(BYTES(OLD_LOG), OUT(sizeof NEW_LOG - 2)));
    REFUSED(71, hgrpc_convert(BYTES(OLD_LOG), OUT(0)));
}

/* A log that is cut at each place, in a buffer that ends there: whole where a record ends, else 70, also where the
 * output is too short; and the place of the record that is broken. */
static void cut_logs(void)
{
    static const size_t ends[] = {0, sizeof OLD_RECORD - 1, sizeof OLD_RECORD + sizeof OLD_DATA - 2, sizeof OLD_LOG - 1};
    size_t count, written, last = 0;
    memset(b.out, 0xa5, sizeof b.out);
    for (count = 0; count < sizeof OLD_LOG; count++) {
        uint8_t *exact = (uint8_t *)malloc(count ? count : 1);
        IS(exact != NULL, 1);
        memcpy(exact, OLD_LOG, count);
        if (last < 3 && count == ends[last + 1])
            last++;
        IS(hgrpc_whole(exact, count), ends[last]);
        if (count == ends[last]) {
            IS(hgrpc_convert(exact, count, OUT(sizeof b.out)), 0);
            IS(written, count + 2 * last);
            IS(memcmp(b.out, NEW_LOG, written), 0);
            memset(b.out, 0xa5, written);
        } else {
            REFUSED(70, hgrpc_convert(exact, count, OUT(sizeof b.out)));
            REFUSED(70, hgrpc_convert(exact, count, OUT(0)));
        }
        free(exact);
    }
}

/* Records with the longest body that two bytes can tell, and without any: what hgrpc_convert_most asks for is enough,
 * and for the second just enough. */
static void most_log(void)
{
    static uint8_t log[4 + UINT16_MAX] = "\xff\xff\2", old[400];
    size_t written, i;
    for (i = 4; i < sizeof log; i++)
        log[i] = (uint8_t)(i ^ i >> 8);
    IS(hgrpc_whole(log, sizeof log), sizeof log);
    IS(hgrpc_whole(log, sizeof log - 1), 0);
    IS(hgrpc_convert(log, sizeof log, OUT(sizeof log + 1)), 71);
    IS(hgrpc_convert(log, sizeof log, OUT(sizeof log + 2)), 0);
    IS(written, sizeof log + 2);
    IS(memcmp(b.out, "\xff\xff\0\0\2\0", 6), 0);
    IS(memcmp(b.out + 6, log + 4, sizeof log - 4), 0);
    IS(hgrpc_convert_most(sizeof log) >= written, 1);
    IS(hgrpc_convert_most(sizeof old), 600);
    IS(hgrpc_convert(old, sizeof old, OUT(600)), 0);
    IS(written, 600);
    IS(hgrpc_convert(old, sizeof old, OUT(599)), 71);
    IS(written, 0);
    IS(hgrpc_convert_most(0), 0);
    IS(hgrpc_convert_most(3), 3);
    IS(hgrpc_convert_most(4), 6);
    IS(hgrpc_convert_most(SIZE_MAX), 0);
    IS(hgrpc_convert_most(SIZE_MAX / 3 * 2 + 2), 0);
    IS(hgrpc_convert_most(SIZE_MAX / 3 * 2) != 0, 1);
}

#define GOOD_LOG NEW_LOG
#define BAD_LOG RECORD "\5\0\0\0\2\0\1\0\1ho" "\0\0\0\0\xff\xff" "\1\0\0\0\1\0x"
#define ENTRY(entry, wanted, one, other) \
    do { \
        IS((entry).number, wanted); \
        IS((entry).first, one); \
        IS((entry).second, other); \
    } while (0)

/* Two lent logs: the last byte of a body differs, then a kind, and the second has a record more. */
static void compared(void)
{
    hgrpc_log_place at = {1, 0, 0}, wrapped = {UINT64_MAX, 0, 0}, past = {7, SIZE_MAX, SIZE_MAX};
    hgrpc_log_entry entry;
    uint64_t place = 9;
    IS(hgrpc_logs_broken(BYTES(GOOD_LOG), BYTES(BAD_LOG), &place), 0);
    IS(place, 0);
    IS(hgrpc_logs_next(BYTES(GOOD_LOG), BYTES(BAD_LOG), &at, &entry), 3);
    ENTRY(entry, 2, 5, 5);
    IS(at.number, 3);
    IS(at.first, sizeof RECORD - 1 + 11);
    IS(at.second, sizeof RECORD - 1 + 11);
    IS(hgrpc_logs_next(BYTES(GOOD_LOG), BYTES(BAD_LOG), &at, &entry), 3);
    ENTRY(entry, 3, 0, 0);
    IS(hgrpc_logs_next(BYTES(GOOD_LOG), BYTES(BAD_LOG), &at, &entry), 2);
    ENTRY(entry, 4, 0, 1);
    IS(hgrpc_logs_next(BYTES(GOOD_LOG), BYTES(BAD_LOG), &at, &entry), 0);
    ENTRY(entry, 0, 0, 0);
    IS(at.number, 5);
    IS(at.first, sizeof GOOD_LOG - 1);
    IS(at.second, sizeof BAD_LOG - 1);
    IS(hgrpc_logs_next(BYTES(RECORD), BYTES(""), &wrapped, &entry), 1);
    IS(entry.number == UINT64_MAX, 1);
    IS(entry.first, 19);
    IS(entry.second, 0);
    IS(wrapped.number, 0);
    IS(hgrpc_logs_next(BYTES(GOOD_LOG), BYTES(BAD_LOG), &past, &entry), 0);
    ENTRY(entry, 0, 0, 0);
    IS(hgrpc_logs_next(BYTES(""), BYTES(""), &at, &entry), 0);
    ENTRY(entry, 0, 0, 0);
}

/* A log that is cut at each place, in a buffer that ends there, as the first, as the second and as both. */
static void broken_logs(void)
{
    static const size_t ends[] = {0, sizeof RECORD - 1, sizeof RECORD - 1 + 11, sizeof GOOD_LOG - 1};
    size_t count, last = 0;
    uint64_t place = 9;
    for (count = 0; count < sizeof GOOD_LOG; count++) {
        uint8_t *exact = (uint8_t *)malloc(count ? count : 1);
        uint32_t broken;
        IS(exact != NULL, 1);
        memcpy(exact, GOOD_LOG, count);
        if (last < 3 && count == ends[last + 1])
            last++;
        broken = count != ends[last];
        IS(hgrpc_logs_broken(exact, count, BYTES(GOOD_LOG), &place), broken);
        IS(place, broken ? ends[last] : 0);
        IS(hgrpc_logs_broken(BYTES(GOOD_LOG), exact, count, &place), 2 * broken);
        IS(place, broken ? ends[last] : 0);
        IS(hgrpc_logs_broken(exact, count, BYTES("\0"), &place), broken ? 1 : 2);
        IS(place, broken ? ends[last] : 0);
        free(exact);
    }
    IS(hgrpc_logs_broken(BYTES(""), BYTES(RECORD "\xff\xff\xff\xff\1\0x"), &place), 2);
    IS(place, sizeof RECORD - 1);
}

/* The same two logs in pieces of these sizes. */
static void in_steps(size_t one, size_t other)
{
    static const uint64_t wanted[3][4] = {{3, 2, 5, 5}, {3, 3, 0, 0}, {2, 4, 0, 1}};
    const uint8_t *first = (const uint8_t *)GOOD_LOG, *second = (const uint8_t *)BAD_LOG;
    size_t first_left = sizeof GOOD_LOG - 1, second_left = sizeof BAD_LOG - 1, told = 0;
    hgrpc_comparing state;
    memset(&state, 0, sizeof state);
    while (first_left + second_left > 0) {
        size_t n = first_left < one ? first_left : one, m = second_left < other ? second_left : other;
        size_t first_taken, second_taken;
        hgrpc_log_entry entry;
        uint32_t logs = hgrpc_compare(&state, first, n, n == first_left, second, m, m == second_left,
                                      &first_taken, &second_taken, &entry);
        IS(first_taken <= n && second_taken <= m && first_taken + second_taken > 0, 1);
        first += first_taken;
        first_left -= first_taken;
        second += second_taken;
        second_left -= second_taken;
        if (logs != 0) {
            IS(told < 3, 1);
            IS(logs, wanted[told][0]);
            ENTRY(entry, wanted[told][1], wanted[told][2], wanted[told][3]);
            told++;
        } else {
            ENTRY(entry, 0, 0, 0);
        }
    }
    IS(told, 3);
    IS(hgrpc_compared(&state), true);
}

/* The steps in pieces of every size; that a record is under way; and no logs at all. */
static void stepped(void)
{
    size_t one, other, first_taken = 9, second_taken = 9;
    hgrpc_log_entry entry;
    hgrpc_comparing state;
    IS(sizeof(hgrpc_log_partial), 24);
    IS(sizeof(hgrpc_comparing), 72);
    IS(sizeof(hgrpc_scanning), 40);
    for (one = 1; one <= sizeof GOOD_LOG; one++)
        for (other = 1; other <= sizeof BAD_LOG; other++)
            in_steps(one, other);
    memset(&state, 0, sizeof state);
    IS(hgrpc_compared(&state), true);
    IS(hgrpc_compare(&state, BYTES(""), true, BYTES(""), true, &first_taken, &second_taken, &entry), 0);
    IS(first_taken + second_taken, 0);
    ENTRY(entry, 0, 0, 0);
    IS(hgrpc_compared(&state), true);
    IS(hgrpc_compare(&state, BYTES("\1"), false, BYTES(""), false, &first_taken, &second_taken, &entry), 0);
    IS(first_taken, 1);
    IS(second_taken, 0);
    IS(hgrpc_compared(&state), false);
}

/* A log that is read through: where the record under way starts behind each byte, and behind an empty piece. */
static void scanned(void)
{
    static const size_t ends[] = {0, sizeof RECORD - 1, sizeof RECORD - 1 + 11, sizeof GOOD_LOG - 1};
    hgrpc_scanning state;
    size_t count, last = 0;
    memset(&state, 0, sizeof state);
    for (count = 0; count < sizeof GOOD_LOG; count++) {
        if (last < 3 && count == ends[last + 1])
            last++;
        IS(state.place, count);
        IS(state.start, ends[last]);
        hgrpc_scan(&state, BYTES(""));
        IS(state.place, count);
        IS(state.start, ends[last]);
        hgrpc_scan(&state, (const uint8_t *)GOOD_LOG + count, 1);
    }
    memset(&state, 0, sizeof state);
    hgrpc_scan(&state, BYTES(GOOD_LOG BAD_LOG "\0"));
    IS(state.place, sizeof GOOD_LOG + sizeof BAD_LOG - 1);
    IS(state.start, sizeof GOOD_LOG + sizeof BAD_LOG - 2);
}

int main(void)
{
    first_trace(3);
    first_trace(9);
    first_trace(24);
    refused_calls();
    stopped_for_output();
    refused_headers();
    refused_payloads();
    accepted();
    longest_frame();
    shown();
    drained();
    drained_in_pieces();
    refused_drains();
    row_lengths();
    not_shown();
    cut_records();
    lookups();
    counts();
    marks();
    marked_records();
    coils();
    refused_commands();
    no_board();
    sent();
    refused_requests();
    most_output();
    sent_and_received();
    converted();
    cut_logs();
    most_log();
    compared();
    broken_logs();
    stepped();
    scanned();
    printf("calls: %u answers, each as the rules have it\n", answers);
    return 0;
}
