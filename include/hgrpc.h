/* Both sides of one hgrpc channel, for C99 and C++. On the receiving side bytes
 * of the line go in and records come out; the sending side writes a request's
 * frames. A board of sixteen coils does what the commands ask. Stored logs of
 * records, as they were before a body length had four bytes, are rewritten, and
 * two logs of records as they are now are compared. The calls are those of the
 * archive libhgrpc.a, which is for x86-64 Linux, as the kit's compiler is, and
 * needs memcpy and memset of its surroundings and nothing else.
 *
 * The caller lends every buffer. A buffer is a pointer, which is not NULL also
 * where the length is 0, and a length; the buffers of one call lie apart from
 * each other and from the places for the counts. No call keeps a pointer, and
 * none uses a heap.
 *
 * Every call answers a number; what those that compare logs answer stands beside
 * them. The words are those of docs/RULES.md, which has the exact rules; where they
 * say `above`, it is there:
 *
 *    0  done
 *    1  output shorter than 65,544
 *    2  work area shorter than 81,927
 *    3  state out of shape: pending above 65,542; a slot length above 2,048; a
 *       used id even or double; a free slot or one not collecting that breaks
 *       the rule above; dead number neither 0 nor 11 to 29; a wrong count; or,
 *       8 or more pending, a held length above 65,535 or pending not below 8
 *       plus it. Also: bytes that are no state at all, or no board
 *    4  finish: id neither waiting nor running
 *    5  stopped for output, as above
 *    6  lookup: key absent
 *    7  integer wanted, another type found
 *    8  integer outside -2^63 to 2^63-1
 *    9  row shorter than eight entries
 *   11  payload length above 65,535
 *   12  request id even
 *   13  stream id even
 *   14  stream flag 0x08 or higher
 *   15  type not 1, 2 or 9
 *   16  closed stream, no beginning flag
 *   17  open stream, beginning flag
 *   18  type's flags broken
 *   19  new: id active
 *   20  new: no free slot
 *   21  continuation: id not collecting
 *   22  0x08 differs from the first frame
 *   23  command longer than 2,048 in all
 *   24  whole command isn't one CBOR item of the subset
 *   25  it isn't a command map
 *   26  a key twice in the outer map or in `args`
 *   27  data: id neither waiting nor draining
 *   28  settings without beginning
 *   29  settings not identity
 *   40  unknown command
 *   41  argument missing, extra or of the wrong type
 *   42  coil not 0 to 15
 *   43  text over 16 bytes
 *   50  an even request or stream id
 *   51  a size outside the range
 *   52  a command the check would refuse
 *   53  a command over 2,048 bytes
 *   54  output too short for the exact total
 *   70  the log ends inside a record
 *   71  output shorter than the exact total
 *
 * 11 to 29 refuse a frame: the channel is then dead, and the number is its dead
 * number, which every later feed and finish on it answers. 40 to 43 refuse a
 * command that the board is to do, 50 to 54 a request that is to be sent, and 70
 * and 71 a log that is to be converted; they change nothing. */

#ifndef HGRPC_H
#define HGRPC_H

#include <stdbool.h>
#include <stddef.h>
#include <stdint.h>

#ifdef __cplusplus
extern "C" {
#endif

#define HGRPC_STATE 181              /* bytes of a state, exactly */
#define HGRPC_WORK 81927             /* bytes of a work area, at least */
#define HGRPC_OUTPUT 65544           /* bytes of an output, at least: the longest record */
#define HGRPC_FRAME_HEAD 8           /* bytes of a frame before its payload */
#define HGRPC_RECORD_HEAD 9          /* bytes of a record before its command or payload */
#define HGRPC_COMMAND_LONGEST 2048   /* bytes of a command, at most */
#define HGRPC_PAYLOAD_LONGEST 65535  /* bytes of a frame's payload, at most */
#define HGRPC_SEND_SIZE_LONGEST 4096 /* bytes of the payload of a full frame that is sent, at most */
#define HGRPC_REQUESTS 8             /* requests at a time, at most: the slots, counted from 0 */
#define HGRPC_ENTRY 3                /* bytes of an entry of a row */
#define HGRPC_ROW 24                 /* bytes of a row's eight entries; a row has these at least */
#define HGRPC_BOARD 288              /* bytes of a board, exactly */
#define HGRPC_COILS 16               /* coils of a board, counted from 0 */
#define HGRPC_LABEL_LONGEST 16       /* bytes of a coil's label, at most */

/* The phases of a slot, as an entry of a row has them. */
#define HGRPC_PHASE_FREE 0       /* no request is in the slot */
#define HGRPC_PHASE_COLLECTING 1 /* its command isn't whole */
#define HGRPC_PHASE_WAITING 2    /* its command is whole, its data not; finish lets it drain */
#define HGRPC_PHASE_RUNNING 3    /* all has come; finish frees the slot */
#define HGRPC_PHASE_DRAINING 4   /* finished before its data has all come; the last of it frees the slot */

/* The kinds of records. Beside its bit a command has `loose`, which says how it is
 * written. */
#define HGRPC_KIND_COMMAND 1 /* a command is whole; its bit says whether data follows */
#define HGRPC_KIND_DATA 2    /* data of a request; its bit says whether it is the last */

/* ---- the calls on bytes ---- */

/* 0: the bytes are a fresh state: live, nothing pending, all slots free, all
 * streams closed. 3: the length is not HGRPC_STATE, and nothing changed. */
uint32_t hgrpc_fresh(uint8_t *state, size_t state_length);

/* Takes bytes of the input and writes the records of the frames they complete.
 * 2, 3, the dead number or 1, tried in this order: nothing changed, both counts
 * are 0. 0: the input is read to its end. 5: the next byte ends a frame and
 * less than HGRPC_OUTPUT bytes of output are left; offer the input from `taken`
 * on again, with a fresh output. 11 to 29: a frame is refused, and its judging
 * byte is the last one taken.
 * With 0, 5 and 11 to 29 the first `written` bytes of the output are records
 * and the rest is as it was; the frame under way and the commands being
 * collected are in the work area, so the next call needs it as it was left. */
uint32_t hgrpc_feed(uint8_t *state, size_t state_length,
                    uint8_t *work, size_t work_length,
                    const uint8_t *input, size_t input_length,
                    uint8_t *out, size_t out_length,
                    size_t *taken, size_t *written);

/* The owner has done what request `id` asked, or will not do it. 0: if all of
 * the request has come, its slot is free again. If its data has not all come, it
 * drains: what comes of it is taken by the same rules and gives no record, and
 * the last data frame frees the slot; till then the id is active.
 * 3, the dead number or 4, tried in this order: nothing changed. */
uint32_t hgrpc_finish(uint8_t *state, size_t state_length, uint16_t id);

/* How many requests are active, for a status lamp: 0, and `count` is the new
 * frames accepted since the state was fresh less the finishes of running ids
 * and the drains ended, HGRPC_REQUESTS at most. It is right after every call on the channel, refused
 * ones too, and is told of a dead channel like of a live one. 3: the bytes are no
 * state, or one that finish would refuse with 3; `count` is 0. */
uint32_t hgrpc_active(const uint8_t *state, size_t state_length, size_t *count);

/* Fills a row for a screen: an entry for each slot, in slot order, of HGRPC_ENTRY
 * bytes: the request id, its low byte first, and the phase; of a free slot all 0.
 * 0: the first HGRPC_ROW bytes are the entries, and the rest of the row is as it
 * was. 3, the bytes are no state, or one that finish would refuse with 3, then 9,
 * the row is shorter than HGRPC_ROW: the row is as it was. A dead channel's row is
 * filled too. */
uint32_t hgrpc_row(const uint8_t *state, size_t state_length, uint8_t *row, size_t row_length);

/* Whether bytes are a command: 0, 24, 25 or 26. A command needs `name`; `args`
 * and `redirect` may be missing, and a missing `args` reads as an empty map. */
uint32_t hgrpc_check(const uint8_t *command, size_t length);

/* The number of arguments, 0 if hgrpc_check refuses the command. */
uint64_t hgrpc_argument_count(const uint8_t *command, size_t length);

/* Whether a command is written loosely: 1 if one of its heads, be it of an
 * integer, a byte string, an array, a map or a set's tag, is not the shortest for
 * its number, as 18 17 for 23. 0 if all are, or if hgrpc_check refuses the
 * command. Nothing is refused for it: two commands that differ in their heads
 * alone ask for the same. */
uint32_t hgrpc_loose(const uint8_t *command, size_t length);

/* 0: the command's name is `size` bytes from place `at` of the command on.
 * The check's 24, 25 or 26: `at` and `size` are 0. */
uint32_t hgrpc_name(const uint8_t *command, size_t length, size_t *at, size_t *size);

/* 0: the value of argument `key`, a whole CBOR item, is `size` bytes from place
 * `at` of the command on. The check's number, then 6: `at` and `size` are 0. */
uint32_t hgrpc_argument(const uint8_t *command, size_t length,
                        const uint8_t *key, size_t key_length,
                        size_t *at, size_t *size);

/* 0: the value of argument `key` is the integer `value`. The check's number,
 * then 6, 7 or 8: `value` is 0. */
uint32_t hgrpc_integer(const uint8_t *command, size_t length,
                       const uint8_t *key, size_t key_length, int64_t *value);

/* 0: the bytes are the first board: all coils off, with empty labels. 3: the
 * length is not HGRPC_BOARD, and nothing changed. */
uint32_t hgrpc_board_first(uint8_t *board, size_t board_length);

/* Has the board do a command:
 *
 *   set     `coil` and `on`, which is true or false: switches the coil
 *   label   `coil` and `text`, a byte string of 0 to HGRPC_LABEL_LONGEST bytes:
 *           the coil's label is then that text
 *   off     no arguments: switches all coils off, and keeps their labels
 *
 * A command takes exactly these arguments, in any order, with heads of any width;
 * `coil` is 0 to 15. 0: done, and all else of the board is as it was. Else the
 * first that applies of: 3 the bytes are no board; 24, 25, 26 hgrpc_check refuses
 * the command; 40 the command is none of these; 41 an argument is missing, there
 * is another one, or one has another type, as `on` with null; 42 the coil is any
 * other integer, however large; 43 the text is longer. With these nothing changed.
 *
 * The bytes of a board are for each coil its switch, 0 or 1, its label's length, 0
 * to 16, and 16 places for the label, any bytes. On every board that came from the
 * first one the places that a label does not use are 0. */
uint32_t hgrpc_board_apply(uint8_t *board, size_t board_length,
                           const uint8_t *command, size_t length);

/* 0: `on` says whether the coil is on. 3 the bytes are no board, then 42 there is
 * no such coil: `on` is false. */
uint32_t hgrpc_board_switch(const uint8_t *board, size_t board_length, size_t coil, bool *on);

/* 0: the coil's label is `size` bytes from place `at` of the board's bytes on. 3
 * the bytes are no board, then 42 there is no such coil: `at` and `size` are 0. */
uint32_t hgrpc_board_label(const uint8_t *board, size_t board_length, size_t coil,
                           size_t *at, size_t *size);

/* Writes the frames of one request: a command, and data if some follows it.
 *
 * The command is the map of `name` and `args`, in this order. `name` is 1 to 64
 * bytes. `pairs` are the arguments, `count` in number, as encoded CBOR: a key,
 * which is a byte string, its value, the next key, its value, and so on, with
 * nothing before, between or behind. No key stands twice. Values are items of
 * the subset with at most six levels of containers, for `args` itself is the
 * second of eight. Heads in the pairs needn't be shortest, and go out as they
 * are; the command is then written loosely. For no arguments `count` and
 * `pairs_length` are 0.
 *
 * `request` is an odd id that is not active at the receiver, and `stream` an odd
 * stream. With `begin` the first frame begins the stream, which the receiver
 * wants exactly where the stream is closed; with `end` the last frame ends it.
 * `size` is the payload of a full frame, 1 to HGRPC_SEND_SIZE_LONGEST: every frame
 * but the last of the command and the last of the data is full, and no frame is
 * empty but the one of data of length 0. Without `with_data` no data follows:
 * `data` is then not read, but it is not NULL either.
 *
 * 0: the frames are the first `written` bytes of the output, and the rest of it
 * is as it was. Else the first that applies of: 50 `request` or `stream` is even;
 * 51 `size` is out of range; 52 hgrpc_check would refuse the command, be it for
 * its name, a `count` that is not the number of pairs there, bytes left over,
 * a key twice or a value; 53 the command is longer than HGRPC_COMMAND_LONGEST;
 * 54 the output is shorter than all the frames. With 50 to 54 `written` is 0 and
 * nothing else changed.
 *
 * How long the output must be: the command has L = 11 + H(name_length) +
 * name_length + H(count) + pairs_length bytes, where the head H(n) is 1 byte to
 * 23, 2 to 255, 3 to 65,535, and then 5 or 9. It goes out in L / size frames,
 * rounded up, and `data_length` bytes of data in data_length / size, rounded up,
 * but 1 at least; each frame has HGRPC_FRAME_HEAD bytes besides. As many bytes
 * as hgrpc_send_most tells are always enough. */
uint32_t hgrpc_send(const uint8_t *name, size_t name_length,
                    const uint8_t *pairs, size_t pairs_length, uint64_t count,
                    uint16_t request, uint8_t stream, bool begin, bool end, size_t size,
                    bool with_data, const uint8_t *data, size_t data_length,
                    uint8_t *out, size_t out_length, size_t *written);

/* The bytes of the frames of so many bytes of command or data; 0 if they are more
 * than a size_t counts. The size is not 0. */
static inline size_t hgrpc_frames_length(size_t length, size_t size)
{
    size_t frames = length == 0 ? 1 : (length - 1) / size + 1;
    if (frames > (SIZE_MAX - length) / HGRPC_FRAME_HEAD)
        return 0;
    return length + frames * HGRPC_FRAME_HEAD;
}

/* The bytes of output that are enough for hgrpc_send, whatever the name and the
 * pairs: a command that is sent has HGRPC_COMMAND_LONGEST at most. 0 if `size` is
 * 0, or if they are more than a size_t counts. */
static inline size_t hgrpc_send_most(size_t size, bool with_data, size_t data_length)
{
    size_t command, data;
    if (size == 0)
        return 0;
    command = hgrpc_frames_length(HGRPC_COMMAND_LONGEST, size);
    if (!with_data)
        return command;
    data = hgrpc_frames_length(data_length, size);
    return data == 0 || data > SIZE_MAX - command ? 0 : data + command;
}

/* Rewrites a stored log, records one behind another, whose body lengths have two
 * bytes: a length, two bytes of kind, which may be any, and the body. In the output
 * each length has four bytes; kinds and bodies are the same, in order.
 *
 * 0: the log is rewritten whole, as the first `written` bytes of the output, two
 * more for each record, and the rest of the output is as it was. Else the first
 * that applies of: 70 the log ends inside a record; 71 the output is shorter than
 * the log is then. With 70 and 71 `written` is 0 and nothing else changed. A log
 * of no bytes is converted to one of no bytes. */
uint32_t hgrpc_convert(const uint8_t *log, size_t log_length,
                       uint8_t *out, size_t out_length, size_t *written);

/* How many bytes the whole records at the front of such a log have: all of a log
 * that hgrpc_convert does not refuse with 70, else as many as stand before the
 * record that is broken, which is its place, counted from 0. So many bytes of the
 * log are a log that can be converted. */
size_t hgrpc_whole(const uint8_t *log, size_t log_length);

/* The bytes of output that are enough for hgrpc_convert, whatever the log: each of
 * its records has four bytes at least. 0 if they are more than a size_t counts. */
static inline size_t hgrpc_convert_most(size_t length)
{
    size_t more = length / 4 * 2;
    return more > SIZE_MAX - length ? 0 : length + more;
}

/* Compares two logs, records one behind another whose body lengths have four bytes:
 * a length, its lowest byte first, two bytes of kind, which may be any, and the
 * body. Records are counted from 1, and record stands against record in order. An
 * entry is a record that is not the same in both logs, in kind or body, or that
 * only one of them has; equal logs have none.
 *
 * The archive takes the fields of these structs one by one; the inline functions
 * below lend them to it. */

/* Where a comparison of two lent logs stands: the number of the next record, and
 * where it starts in each log. {1, 0, 0} is its start. */
typedef struct {
    uint64_t number;
    size_t first;
    size_t second;
} hgrpc_log_place;

/* An entry: a record's number, and the length of its body in each log that has it,
 * 0 in one that has not. */
typedef struct {
    uint64_t number;
    uint64_t first;
    uint64_t second;
} hgrpc_log_entry;

/* 0: both logs are whole, and `place` is 0. 1 or 2: that log ends inside a record,
 * which starts at `place`, counted from 0. Log 1 is looked at first. */
uint32_t hgrpc_logs_broken(const uint8_t *first, size_t first_length,
                           const uint8_t *second, size_t second_length, uint64_t *place);

/* The next entry from the place `at` on. The answer says which logs have the record:
 * 3 both, and they differ, 1 only the first, 2 only the second; `at` is then behind
 * the record. 0: no entry is left, `entry` is all 0, and `at` is behind the last
 * whole records. Any place is taken: past its end a log has no records. A broken
 * log counts as its whole records in front, so ask hgrpc_logs_broken first. Numbers
 * wrap at 2^64. */
uint32_t hgrpc_next_entry(const uint8_t *first, size_t first_length,
                          const uint8_t *second, size_t second_length,
                          uint64_t *number, size_t *at_first, size_t *at_second,
                          uint64_t *entry_number, uint64_t *entry_first, uint64_t *entry_second);
static inline uint32_t hgrpc_logs_next(const uint8_t *first, size_t first_length,
                                       const uint8_t *second, size_t second_length,
                                       hgrpc_log_place *at, hgrpc_log_entry *entry)
{
    return hgrpc_next_entry(first, first_length, second, second_length,
                            &at->number, &at->first, &at->second,
                            &entry->number, &entry->first, &entry->second);
}

/* The same for logs that come in pieces, of which no record is held whole. */

/* The record under way in a log: the first bytes of its head, held % 6 in number,
 * that came so far, and what is left of its body. */
typedef struct {
    uint8_t head[6];
    size_t held;
    uint64_t left;
} hgrpc_log_partial;

/* A comparison of two logs that come in pieces, all 0 at the start: the number of the
 * record under way, the length of its body in log 1, what came of it in each log,
 * and 1 while the two are not known to differ, else 0. Any bytes are one. */
typedef struct {
    uint64_t number;
    uint64_t length;
    hgrpc_log_partial first;
    hgrpc_log_partial second;
    uint64_t alike;
} hgrpc_comparing;

/* One step with the bytes of both logs that are at hand. `first_last` says that
 * nothing of log 1 follows the piece, `second_last` the same of log 2. Answers as
 * hgrpc_logs_next, and 0, with an entry that is all 0, also where nothing is to be
 * said yet. `first_taken` and `second_taken` bytes of the pieces are done with; offer
 * the rest again, with what follows it. Where something of each log is at hand, or
 * its end, and both logs are whole, a step takes a byte at least, till both are at
 * their ends. Whether the logs are whole is to be known before: see hgrpc_scan. */
uint32_t hgrpc_compare_step(uint64_t *number, uint64_t *length,
                            uint8_t *first_head, size_t *first_held, uint64_t *first_left,
                            uint8_t *second_head, size_t *second_held, uint64_t *second_left,
                            uint64_t *alike,
                            const uint8_t *first, size_t first_length, bool first_last,
                            const uint8_t *second, size_t second_length, bool second_last,
                            size_t *first_taken, size_t *second_taken,
                            uint64_t *entry_number, uint64_t *entry_first, uint64_t *entry_second);
static inline uint32_t hgrpc_compare(hgrpc_comparing *state,
                                     const uint8_t *first, size_t first_length, bool first_last,
                                     const uint8_t *second, size_t second_length, bool second_last,
                                     size_t *first_taken, size_t *second_taken,
                                     hgrpc_log_entry *entry)
{
    return hgrpc_compare_step(&state->number, &state->length,
                              state->first.head, &state->first.held, &state->first.left,
                              state->second.head, &state->second.held, &state->second.left,
                              &state->alike,
                              first, first_length, first_last, second, second_length, second_last,
                              first_taken, second_taken,
                              &entry->number, &entry->first, &entry->second);
}

/* Whether no record is under way in either log: where both logs are at their ends,
 * both were whole. */
bool hgrpc_is_between(size_t first_held, uint64_t first_left,
                      size_t second_held, uint64_t second_left);
static inline bool hgrpc_compared(const hgrpc_comparing *state)
{
    return hgrpc_is_between(state->first.held, state->first.left,
                            state->second.held, state->second.left);
}

/* A log that is read through for a break, all 0 at the start: the record under way,
 * where it starts, and how many bytes were taken. Where no record is under way the
 * last two are the same. So a log is whole if they are at its end, and else it is
 * broken at `start`. Any bytes are one. */
typedef struct {
    hgrpc_log_partial record;
    uint64_t start;
    uint64_t place;
} hgrpc_scanning;

/* Takes the next piece of the log, all of it. */
void hgrpc_scan_piece(uint8_t *head, size_t *held, uint64_t *left,
                      uint64_t *start, uint64_t *place, const uint8_t *piece, size_t length);
static inline void hgrpc_scan(hgrpc_scanning *state, const uint8_t *piece, size_t length)
{
    hgrpc_scan_piece(state->record.head, &state->record.held, &state->record.left,
                     &state->start, &state->place, piece, length);
}

/* The 16-bit number in two bytes, the low one first. */
static inline uint16_t hgrpc_two_bytes(const uint8_t *bytes)
{
    return (uint16_t)(bytes[0] | (unsigned)bytes[1] << 8);
}

/* The 32-bit number in four bytes, the lowest one first. */
static inline uint32_t hgrpc_four_bytes(const uint8_t *bytes)
{
    return hgrpc_two_bytes(bytes) | (uint32_t)hgrpc_two_bytes(bytes + 2) << 16;
}

/* ---- the same with the state as a struct ---- */

/* A channel's state. Its bytes are the archive's own affair; a copy of the
 * struct is a copy of the state. */
typedef struct {
    uint8_t bytes[HGRPC_STATE];
} hgrpc_state;

/* What a feed answers: its number, and how many bytes it took of the input and
 * wrote to the output. */
typedef struct {
    uint32_t number;
    size_t taken;
    size_t written;
} hgrpc_fed;

/* Makes the state a fresh one. It has no refusal, since the length is right. */
static inline void hgrpc_channel_fresh(hgrpc_state *state)
{
    (void)hgrpc_fresh(state->bytes, sizeof state->bytes);
}

/* The answers of hgrpc_feed, and what it leaves in each buffer. */
static inline hgrpc_fed hgrpc_channel_feed(hgrpc_state *state,
                                           uint8_t *work, size_t work_length,
                                           const uint8_t *input, size_t input_length,
                                           uint8_t *out, size_t out_length)
{
    hgrpc_fed fed;
    fed.number = hgrpc_feed(state->bytes, sizeof state->bytes, work, work_length, input,
                            input_length, out, out_length, &fed.taken, &fed.written);
    return fed;
}

/* The answers of hgrpc_finish: 0 and the slot is free or drains, or 3, the dead
 * number or 4 and nothing changed. */
static inline uint32_t hgrpc_channel_finish(hgrpc_state *state, uint16_t id)
{
    return hgrpc_finish(state->bytes, sizeof state->bytes, id);
}

/* The answers of hgrpc_active: 0 and the count, or 3 and `count` is 0; never 3,
 * where the state came from a fresh one. */
static inline uint32_t hgrpc_channel_active(const hgrpc_state *state, size_t *count)
{
    return hgrpc_active(state->bytes, sizeof state->bytes, count);
}

/* An entry of a row: what is in a slot. A free slot's id is 0. */
typedef struct {
    uint16_t id;
    uint8_t phase;
} hgrpc_entry;

/* 0: `row` is the eight entries that hgrpc_row fills. 3: it is as it was; never,
 * where the state came from a fresh one. */
static inline uint32_t hgrpc_channel_row(const hgrpc_state *state, hgrpc_entry row[HGRPC_REQUESTS])
{
    uint8_t bytes[HGRPC_ROW];
    size_t slot;
    uint32_t number = hgrpc_row(state->bytes, sizeof state->bytes, bytes, sizeof bytes);
    for (slot = 0; number == 0 && slot < HGRPC_REQUESTS; slot++) {
        row[slot].id = hgrpc_two_bytes(bytes + slot * HGRPC_ENTRY);
        row[slot].phase = bytes[slot * HGRPC_ENTRY + 2];
    }
    return number;
}

/* ---- the same with the board as a struct ---- */

/* Sixteen coils. A copy of the struct is a copy of the board. */
typedef struct {
    uint8_t bytes[HGRPC_BOARD];
} hgrpc_board;

/* What a coil does, and what it is called. `label` points into the board: the next
 * command that the board does may change it. */
typedef struct {
    bool on;
    const uint8_t *label;
    size_t size;
} hgrpc_coil;

/* Makes the board the first one, all off with empty labels. It has no refusal,
 * since the length is right. */
static inline void hgrpc_coils_first(hgrpc_board *board)
{
    (void)hgrpc_board_first(board->bytes, sizeof board->bytes);
}

/* The answers of hgrpc_board_apply: 0 and the command is done, or 24 to 26 or 40 to
 * 43 and nothing changed; never 3, where the board came from the first one. */
static inline uint32_t hgrpc_coils_apply(hgrpc_board *board, const uint8_t *command, size_t length)
{
    return hgrpc_board_apply(board->bytes, sizeof board->bytes, command, length);
}

/* 0: `coil` is the board's coil of this number. 3, then 42: it is off, and its label
 * is empty. */
static inline uint32_t hgrpc_coils_look(const hgrpc_board *board, size_t number, hgrpc_coil *coil)
{
    size_t at;
    uint32_t answer = hgrpc_board_label(board->bytes, sizeof board->bytes, number, &at, &coil->size);
    coil->label = board->bytes + at;
    (void)hgrpc_board_switch(board->bytes, sizeof board->bytes, number, &coil->on);
    return answer;
}

/* ---- the records in an output ---- */

/* A record. `bit` is the data bit of a command, and the last bit of data. `loose`
 * is 1 of a command that is written loosely, as hgrpc_loose has it, and else 0.
 * `bytes` point into the output: the whole command, or the payload of the data
 * frame. The next feed into that output overwrites them. */
typedef struct {
    uint16_t kind;
    uint16_t request;
    uint8_t bit;
    uint8_t loose;
    const uint8_t *bytes;
    size_t length;
} hgrpc_record;

/* 1: `record` is the record at `*place` of the output, and `*place` is behind
 * it. 0: no whole record stands there, and nothing changed. It reads nothing
 * past the first `written` bytes. Begin with `*place` 0. */
static inline int hgrpc_next_record(const uint8_t *out, size_t written, size_t *place,
                                    hgrpc_record *record)
{
    size_t body, left = *place < written ? written - *place : 0;
    const uint8_t *head;
    if (left < HGRPC_RECORD_HEAD)
        return 0;
    head = out + *place;
    body = hgrpc_four_bytes(head);
    if (body < HGRPC_RECORD_HEAD - 6 || left - 6 < body)
        return 0;
    record->kind = hgrpc_two_bytes(head + 4);
    record->request = hgrpc_two_bytes(head + 6);
    record->bit = head[8] & 1;
    record->loose = head[8] >> 1 & 1;
    record->bytes = head + HGRPC_RECORD_HEAD;
    record->length = body - (HGRPC_RECORD_HEAD - 6);
    *place += 6 + body;
    return 1;
}

/* Whether the record's request runs now, so that a finish frees its slot: a
 * command that no data follows, however it is written, or the last data. */
static inline int hgrpc_record_runs(const hgrpc_record *record)
{
    return (record->kind == HGRPC_KIND_COMMAND) == (record->bit == 0);
}

#ifdef __cplusplus
}
#endif

#endif
