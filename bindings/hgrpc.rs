//! Both sides of one hgrpc channel: on the receiving side bytes of the line go
//! in and records come out; the sending side writes a request's frames. A board
//! of sixteen coils does what the commands ask. Stored logs of records, as they
//! were before a body length had four bytes, are rewritten, and two logs of records
//! as they are now are compared. These are the calls of the archive `libhgrpc.a`,
//! which is for x86-64 Linux, as safe functions over slices. As a crate of its own:
//!
//!     rustc --edition 2021 --crate-type rlib --crate-name hgrpc \
//!         -L native=target/staticlib -l static=hgrpc bindings/hgrpc.rs
//!
//! The caller lends every buffer: a work area of at least `WORK` bytes, which
//! stays the channel's from call to call, the input, and an output of at least
//! `OUTPUT` bytes. What each number means is the table in docs/RULES.md, which
//! include/hgrpc.h has too.

// A program that takes this file in as a module may use a part of it.
#![allow(dead_code)]

/// The bytes of a state, exactly.
pub const STATE: usize = 181;
/// The bytes of a work area, at least.
pub const WORK: usize = 81_927;
/// The bytes of an output, at least: those of the longest record.
pub const OUTPUT: usize = 65_544;
/// The bytes of a frame before its payload.
pub const FRAME_HEAD: usize = 8;
/// The bytes of a record before its command or payload.
pub const RECORD_HEAD: usize = 9;
/// The bytes of a command, at most.
pub const COMMAND_LONGEST: usize = 2_048;
/// The bytes of a frame's payload, at most.
pub const PAYLOAD_LONGEST: usize = 65_535;
/// The bytes of the payload of a full frame that is sent, at most.
pub const SEND_SIZE_LONGEST: usize = 4_096;
/// The requests at a time, at most: the slots, counted from 0.
pub const REQUESTS: usize = 8;
/// The bytes of an entry of a row.
pub const ENTRY: usize = 3;
/// The bytes of a row's entries, one for each slot; a row has these at least.
pub const ROW: usize = REQUESTS * ENTRY;
/// The bytes of a board, exactly.
pub const BOARD: usize = 288;
/// The coils of a board, counted from 0.
pub const COILS: usize = 16;
/// The bytes of a coil's label, at most.
pub const LABEL_LONGEST: usize = 16;

/// The calls of the archive. A slice is a pointer, which is not null also where
/// the length is 0, and a length; the slices of one call lie apart.
pub mod raw {
    /// Where a comparison of two lent logs stands: the number of the next record, and
    /// where it starts in each log.
    #[repr(C)]
    #[derive(Clone, Copy, Debug, PartialEq, Eq)]
    pub struct LogPlace {
        pub number: u64,
        pub first: usize,
        pub second: usize,
    }

    impl LogPlace {
        pub const START: LogPlace = LogPlace {
            number: 1,
            first: 0,
            second: 0,
        };
    }

    /// A record's number, and the length of its body in each log that has it, 0 in one
    /// that has not.
    #[repr(C)]
    #[derive(Clone, Copy, Debug, Default, PartialEq, Eq)]
    pub struct LogEntry {
        pub number: u64,
        pub first: u64,
        pub second: u64,
    }

    /// The record under way in a log: the first bytes of its head, `held % 6` in
    /// number, that came so far, and what is left of its body.
    #[repr(C)]
    #[derive(Clone, Copy, Debug, Default, PartialEq, Eq)]
    pub struct LogPartial {
        pub head: [u8; 6],
        pub held: usize,
        pub left: u64,
    }

    /// A comparison of two logs that come in pieces, all 0 at the start. Any bytes are
    /// one.
    #[repr(C)]
    #[derive(Clone, Copy, Debug, Default, PartialEq, Eq)]
    pub struct Comparing {
        pub number: u64,
        pub length: u64,
        pub first: LogPartial,
        pub second: LogPartial,
        pub alike: u64,
    }

    /// A log that is read through for a break, all 0 at the start. Any bytes are one.
    #[repr(C)]
    #[derive(Clone, Copy, Debug, Default, PartialEq, Eq)]
    pub struct Scanning {
        pub record: LogPartial,
        pub start: u64,
        pub place: u64,
    }

    extern "C" {
        pub fn hgrpc_fresh(state: *mut u8, state_length: usize) -> u32;
        pub fn hgrpc_feed(
            state: *mut u8,
            state_length: usize,
            work: *mut u8,
            work_length: usize,
            input: *const u8,
            input_length: usize,
            out: *mut u8,
            out_length: usize,
            taken: *mut usize,
            written: *mut usize,
        ) -> u32;
        pub fn hgrpc_finish(state: *mut u8, state_length: usize, id: u16) -> u32;
        pub fn hgrpc_active(state: *const u8, state_length: usize, count: *mut usize) -> u32;
        pub fn hgrpc_row(
            state: *const u8,
            state_length: usize,
            row: *mut u8,
            row_length: usize,
        ) -> u32;
        pub fn hgrpc_check(command: *const u8, length: usize) -> u32;
        pub fn hgrpc_name(
            command: *const u8,
            length: usize,
            at: *mut usize,
            size: *mut usize,
        ) -> u32;
        pub fn hgrpc_argument(
            command: *const u8,
            length: usize,
            key: *const u8,
            key_length: usize,
            at: *mut usize,
            size: *mut usize,
        ) -> u32;
        pub fn hgrpc_integer(
            command: *const u8,
            length: usize,
            key: *const u8,
            key_length: usize,
            value: *mut i64,
        ) -> u32;
        pub fn hgrpc_argument_count(command: *const u8, length: usize) -> u64;
        pub fn hgrpc_loose(command: *const u8, length: usize) -> u32;
        pub fn hgrpc_board_first(board: *mut u8, board_length: usize) -> u32;
        pub fn hgrpc_board_apply(
            board: *mut u8,
            board_length: usize,
            command: *const u8,
            length: usize,
        ) -> u32;
        pub fn hgrpc_board_switch(
            board: *const u8,
            board_length: usize,
            coil: usize,
            on: *mut bool,
        ) -> u32;
        pub fn hgrpc_board_label(
            board: *const u8,
            board_length: usize,
            coil: usize,
            at: *mut usize,
            size: *mut usize,
        ) -> u32;
        pub fn hgrpc_send(
            name: *const u8,
            name_length: usize,
            pairs: *const u8,
            pairs_length: usize,
            count: u64,
            request: u16,
            stream: u8,
            begin: bool,
            end: bool,
            size: usize,
            with_data: bool,
            data: *const u8,
            data_length: usize,
            out: *mut u8,
            out_length: usize,
            written: *mut usize,
        ) -> u32;
        pub fn hgrpc_convert(
            log: *const u8,
            log_length: usize,
            out: *mut u8,
            out_length: usize,
            written: *mut usize,
        ) -> u32;
        pub fn hgrpc_whole(log: *const u8, log_length: usize) -> usize;
        pub fn hgrpc_logs_broken(
            first: *const u8,
            first_length: usize,
            second: *const u8,
            second_length: usize,
            place: *mut u64,
        ) -> u32;
        pub fn hgrpc_next_entry(
            first: *const u8,
            first_length: usize,
            second: *const u8,
            second_length: usize,
            number: *mut u64,
            at_first: *mut usize,
            at_second: *mut usize,
            entry_number: *mut u64,
            entry_first: *mut u64,
            entry_second: *mut u64,
        ) -> u32;
        pub fn hgrpc_compare_step(
            number: *mut u64,
            length: *mut u64,
            first_head: *mut [u8; 6],
            first_held: *mut usize,
            first_left: *mut u64,
            second_head: *mut [u8; 6],
            second_held: *mut usize,
            second_left: *mut u64,
            alike: *mut u64,
            first: *const u8,
            first_length: usize,
            first_last: bool,
            second: *const u8,
            second_length: usize,
            second_last: bool,
            first_taken: *mut usize,
            second_taken: *mut usize,
            entry_number: *mut u64,
            entry_first: *mut u64,
            entry_second: *mut u64,
        ) -> u32;
        pub fn hgrpc_is_between(
            first_held: usize,
            first_left: u64,
            second_held: usize,
            second_left: u64,
        ) -> bool;
        pub fn hgrpc_scan_piece(
            head: *mut [u8; 6],
            held: *mut usize,
            left: *mut u64,
            start: *mut u64,
            place: *mut u64,
            piece: *const u8,
            length: usize,
        );
    }

    /// The next entry of two logs from a place on.
    ///
    /// # Safety
    ///
    /// Each pointer is of its type, and of a slice with its length.
    pub unsafe fn hgrpc_logs_next(
        first: *const u8,
        first_length: usize,
        second: *const u8,
        second_length: usize,
        at: *mut LogPlace,
        entry: *mut LogEntry,
    ) -> u32 {
        let (at, entry) = (&mut *at, &mut *entry);
        hgrpc_next_entry(
            first,
            first_length,
            second,
            second_length,
            &mut at.number,
            &mut at.first,
            &mut at.second,
            &mut entry.number,
            &mut entry.first,
            &mut entry.second,
        )
    }

    /// One step of a comparison of two logs that come in pieces.
    ///
    /// # Safety
    ///
    /// Each pointer is of its type, and of a slice with its length.
    #[allow(clippy::too_many_arguments)]
    pub unsafe fn hgrpc_compare(
        state: *mut Comparing,
        first: *const u8,
        first_length: usize,
        first_last: bool,
        second: *const u8,
        second_length: usize,
        second_last: bool,
        first_taken: *mut usize,
        second_taken: *mut usize,
        entry: *mut LogEntry,
    ) -> u32 {
        let (state, entry) = (&mut *state, &mut *entry);
        hgrpc_compare_step(
            &mut state.number,
            &mut state.length,
            &mut state.first.head,
            &mut state.first.held,
            &mut state.first.left,
            &mut state.second.head,
            &mut state.second.held,
            &mut state.second.left,
            &mut state.alike,
            first,
            first_length,
            first_last,
            second,
            second_length,
            second_last,
            first_taken,
            second_taken,
            &mut entry.number,
            &mut entry.first,
            &mut entry.second,
        )
    }

    /// Whether no record is under way in either log.
    ///
    /// # Safety
    ///
    /// The pointer is of a comparison.
    pub unsafe fn hgrpc_compared(state: *const Comparing) -> bool {
        let Comparing { first, second, .. } = *state;
        hgrpc_is_between(first.held, first.left, second.held, second.left)
    }

    /// Takes a piece of a log that is read through for a break.
    ///
    /// # Safety
    ///
    /// The pointers are of a reading and of a slice with its length.
    pub unsafe fn hgrpc_scan(state: *mut Scanning, piece: *const u8, length: usize) {
        let state = &mut *state;
        hgrpc_scan_piece(
            &mut state.record.head,
            &mut state.record.held,
            &mut state.record.left,
            &mut state.start,
            &mut state.place,
            piece,
            length,
        )
    }
}

/// What a feed answers: its number, and how many bytes it took of the input
/// and wrote to the output.
#[derive(Clone, Copy, Debug, PartialEq, Eq)]
pub struct Fed {
    pub number: u32,
    pub taken: usize,
    pub written: usize,
}

/// A channel's state. Its bytes are the archive's own affair.
#[derive(Clone, Debug, PartialEq, Eq)]
pub struct State {
    bytes: [u8; STATE],
}

impl State {
    /// Live, nothing pending, all slots free, all streams closed.
    pub fn fresh() -> State {
        let mut bytes = [0; STATE];
        let number = fresh_bytes(&mut bytes);
        assert_eq!(number, 0, "a state has {STATE} bytes");
        State { bytes }
    }

    /// As `feed_bytes`.
    pub fn feed(&mut self, work: &mut [u8], input: &[u8], out: &mut [u8]) -> Fed {
        feed_bytes(&mut self.bytes, work, input, out)
    }

    /// As `finish_bytes`.
    pub fn finish(&mut self, id: u16) -> u32 {
        finish_bytes(&mut self.bytes, id)
    }

    /// As `active_bytes`. A state that came from a fresh one is in shape.
    pub fn active(&self) -> usize {
        active_bytes(&self.bytes).expect("the state is in shape")
    }

    /// What is in each slot, in slot order. A dead channel's row is the same.
    pub fn row(&self) -> [Entry; REQUESTS] {
        let mut row = [0; ROW];
        let number = row_bytes(&self.bytes, &mut row);
        assert_eq!(number, 0, "the state is in shape, and the row long enough");
        std::array::from_fn(|slot| Entry::read(&row[slot * ENTRY..][..ENTRY]))
    }

    pub fn bytes(&self) -> &[u8] {
        &self.bytes
    }
}

/// Where a slot's request is.
#[derive(Clone, Copy, Debug, PartialEq, Eq)]
pub enum Phase {
    /// No request is in the slot.
    Free,
    /// Its command isn't whole.
    Collecting,
    /// Its command is whole, its data not; finish lets it drain.
    Waiting,
    /// All has come; finish frees the slot.
    Running,
    /// Finished before its data has all come; the last of it frees the slot.
    Draining,
}

/// An entry of a row: what is in a slot. A free slot's id is 0.
#[derive(Clone, Copy, Debug, PartialEq, Eq)]
pub struct Entry {
    pub id: u16,
    pub phase: Phase,
}

impl Entry {
    /// Three bytes of a row that was filled.
    fn read(bytes: &[u8]) -> Entry {
        Entry {
            id: u16::from_le_bytes([bytes[0], bytes[1]]),
            phase: match bytes[2] {
                0 => Phase::Free,
                1 => Phase::Collecting,
                2 => Phase::Waiting,
                3 => Phase::Running,
                _ => Phase::Draining,
            },
        }
    }
}

/// 0: the bytes are a fresh state. 3: they are not `STATE` in number, and
/// nothing changed.
pub fn fresh_bytes(state: &mut [u8]) -> u32 {
    // The pointer comes with its own length.
    unsafe { raw::hgrpc_fresh(state.as_mut_ptr(), state.len()) }
}

/// Takes bytes of the input and writes the records of the frames they complete.
/// 2, 3, the dead number or 1, tried in this order: nothing changed. 0: the
/// input is read to its end. 5: the next byte ends a frame and less than
/// `OUTPUT` bytes are left; offer the rest again, with a fresh output. 11 to 29:
/// a frame is refused, and the channel is dead. Output past the written count
/// stays as it was.
pub fn feed_bytes(state: &mut [u8], work: &mut [u8], input: &[u8], out: &mut [u8]) -> Fed {
    let (mut taken, mut written) = (0, 0);
    // Each pointer comes with its own length, and slices lent like this lie
    // apart wherever one of them is written.
    let number = unsafe {
        raw::hgrpc_feed(
            state.as_mut_ptr(),
            state.len(),
            work.as_mut_ptr(),
            work.len(),
            input.as_ptr(),
            input.len(),
            out.as_mut_ptr(),
            out.len(),
            &mut taken,
            &mut written,
        )
    };
    Fed {
        number,
        taken,
        written,
    }
}

/// 0: the request ran, and its slot is free; or it waited for data, and drains:
/// its data is taken by the same rules and gives no record, and the last of it
/// frees the slot. 3, the dead number or 4, tried in this order: nothing changed.
pub fn finish_bytes(state: &mut [u8], id: u16) -> u32 {
    // The pointer comes with its own length.
    unsafe { raw::hgrpc_finish(state.as_mut_ptr(), state.len(), id) }
}

/// How many requests are active, for a status lamp: the new frames accepted since the
/// state was fresh less the finishes accepted, after every call on the channel, refused
/// ones too, and of a dead channel like of a live one. Or 3: the bytes are no state, or
/// one that finish would refuse with 3.
pub fn active_bytes(state: &[u8]) -> Result<usize, u32> {
    let mut count = 0;
    // The pointer comes with its own length.
    let number = unsafe { raw::hgrpc_active(state.as_ptr(), state.len(), &mut count) };
    match number {
        0 => Ok(count),
        _ => Err(number),
    }
}

/// Fills a row with an entry for each slot, in slot order: the request id, its low byte
/// first, and the phase, 0 free, 1 collecting, 2 waiting, 3 running; of a free slot all
/// 0. 0: the first `ROW` bytes are the entries, and the rest is as it was. 3, the bytes
/// are no state, or one that finish would refuse with 3, then 9, the row is shorter than
/// `ROW`: it is as it was. A dead channel's row is filled too.
pub fn row_bytes(state: &[u8], row: &mut [u8]) -> u32 {
    // Each pointer comes with its own length, and the slices lie apart.
    unsafe { raw::hgrpc_row(state.as_ptr(), state.len(), row.as_mut_ptr(), row.len()) }
}

/// Whether bytes are a command: 0, 24, 25 or 26.
pub fn check(command: &[u8]) -> u32 {
    // The pointer comes with its own length.
    unsafe { raw::hgrpc_check(command.as_ptr(), command.len()) }
}

/// The content of a command's name, a part of its bytes; or the check's number.
pub fn name(command: &[u8]) -> Result<&[u8], u32> {
    let (mut at, mut size) = (0, 0);
    // The pointer comes with its own length.
    let number = unsafe { raw::hgrpc_name(command.as_ptr(), command.len(), &mut at, &mut size) };
    part(command, number, at, size)
}

/// The value of an argument, a whole CBOR item and a part of the command's
/// bytes; or the check's number, then 6.
pub fn argument<'c>(command: &'c [u8], key: &[u8]) -> Result<&'c [u8], u32> {
    let (mut at, mut size) = (0, 0);
    // Each pointer comes with its own length.
    let number = unsafe {
        raw::hgrpc_argument(
            command.as_ptr(),
            command.len(),
            key.as_ptr(),
            key.len(),
            &mut at,
            &mut size,
        )
    };
    part(command, number, at, size)
}

/// The value of an argument as an integer; or the check's number, then 6, 7
/// or 8.
pub fn integer(command: &[u8], key: &[u8]) -> Result<i64, u32> {
    let mut value = 0;
    // Each pointer comes with its own length.
    let number = unsafe {
        raw::hgrpc_integer(
            command.as_ptr(),
            command.len(),
            key.as_ptr(),
            key.len(),
            &mut value,
        )
    };
    match number {
        0 => Ok(value),
        _ => Err(number),
    }
}

/// The number of arguments; 0 if the check refuses the command.
pub fn argument_count(command: &[u8]) -> u64 {
    // The pointer comes with its own length.
    unsafe { raw::hgrpc_argument_count(command.as_ptr(), command.len()) }
}

/// Whether a command is written loosely: it passes the check, and one of its
/// heads, be it of an integer, a byte string, an array, a map or a set's tag, is
/// not the shortest for its number. False if the check refuses the command.
pub fn loose(command: &[u8]) -> bool {
    // The pointer comes with its own length.
    unsafe { raw::hgrpc_loose(command.as_ptr(), command.len()) == 1 }
}

/// Sixteen coils, each on or off with a label of 0 to `LABEL_LONGEST` bytes.
#[derive(Clone, Debug, PartialEq, Eq)]
pub struct Board {
    bytes: [u8; BOARD],
}

impl Board {
    /// All off, with empty labels.
    pub fn first() -> Board {
        let mut bytes = [0; BOARD];
        let number = first_board_bytes(&mut bytes);
        assert_eq!(number, 0, "a board has {BOARD} bytes");
        Board { bytes }
    }

    /// As `apply_bytes`.
    pub fn apply(&mut self, command: &[u8]) -> u32 {
        apply_bytes(&mut self.bytes, command)
    }

    /// Whether a coil is on; or 42, there is no such coil.
    pub fn switch(&self, coil: usize) -> Result<bool, u32> {
        switch_bytes(&self.bytes, coil)
    }

    /// A coil's label; or 42, there is no such coil.
    pub fn label(&self, coil: usize) -> Result<&[u8], u32> {
        label_bytes(&self.bytes, coil)
    }

    pub fn bytes(&self) -> &[u8] {
        &self.bytes
    }
}

/// 0: the bytes are the first board, all off with empty labels. 3: they are not
/// `BOARD` in number, and nothing changed.
pub fn first_board_bytes(board: &mut [u8]) -> u32 {
    // The pointer comes with its own length.
    unsafe { raw::hgrpc_board_first(board.as_mut_ptr(), board.len()) }
}

/// Has the board do a command: `set` with `coil` and `on`, `label` with `coil` and
/// `text`, or `off`. 0: done, and all else of the board is as it was. 3 where the
/// bytes are no board, then 24 to 26 and 40 to 43, tried in number order: nothing
/// changed.
pub fn apply_bytes(board: &mut [u8], command: &[u8]) -> u32 {
    // Each pointer comes with its own length, and the slices lie apart.
    unsafe {
        raw::hgrpc_board_apply(
            board.as_mut_ptr(),
            board.len(),
            command.as_ptr(),
            command.len(),
        )
    }
}

/// Whether a coil is on; or 3, the bytes are no board, then 42, there is no such
/// coil.
pub fn switch_bytes(board: &[u8], coil: usize) -> Result<bool, u32> {
    let mut on = false;
    // The pointer comes with its own length.
    let number = unsafe { raw::hgrpc_board_switch(board.as_ptr(), board.len(), coil, &mut on) };
    match number {
        0 => Ok(on),
        _ => Err(number),
    }
}

/// A coil's label, a part of the board's bytes; or 3, the bytes are no board, then
/// 42, there is no such coil.
pub fn label_bytes(board: &[u8], coil: usize) -> Result<&[u8], u32> {
    let (mut at, mut size) = (0, 0);
    // The pointer comes with its own length.
    let number =
        unsafe { raw::hgrpc_board_label(board.as_ptr(), board.len(), coil, &mut at, &mut size) };
    part(board, number, at, size)
}

/// A request to be sent: a command, and data if some follows it.
#[derive(Clone, Copy, Debug, PartialEq, Eq)]
pub struct Request<'r> {
    /// An odd number that is not in use.
    pub id: u16,
    /// The stream that the frames are sent on, an odd number.
    pub stream: u8,
    /// Whether the first frame begins the stream. The receiver wants that
    /// exactly where the stream is closed.
    pub begin: bool,
    /// Whether the last frame ends the stream.
    pub end: bool,
    /// The bytes of a full payload, 1 to `SEND_SIZE_LONGEST`.
    pub size: usize,
    /// The command's name, 1 to 64 bytes.
    pub name: &'r [u8],
    /// The arguments: keys, which are byte strings, and values in turn, each a
    /// CBOR item of the subset, one behind the other.
    pub pairs: &'r [u8],
    /// How many pairs those are.
    pub count: u64,
    /// None: no data follows. No bytes of data are one frame, an empty one.
    pub data: Option<&'r [u8]>,
}

impl Request<'_> {
    /// The bytes of output that are enough for `send`, whatever the name and
    /// the pairs: a command that is sent has at most `COMMAND_LONGEST`. None if
    /// the size is 0, or if there are more than can be counted.
    pub fn most(&self) -> Option<usize> {
        let size = Some(self.size).filter(|size| *size > 0)?;
        let frames = |bytes: usize| {
            let heads = bytes.div_ceil(size).max(1).checked_mul(FRAME_HEAD)?;
            heads.checked_add(bytes)
        };
        let data = self.data.map_or(Some(0), |data| frames(data.len()))?;
        frames(COMMAND_LONGEST)?.checked_add(data)
    }
}

/// What a send answers: its number, and how many bytes it wrote to the output.
#[derive(Clone, Copy, Debug, PartialEq, Eq)]
pub struct Sent {
    pub number: u32,
    pub written: usize,
}

/// Writes the frames of a request. 0: they are at the front of the output, and
/// the rest of it is as it was. 50 to 54, tried in number order: nothing is
/// written. 50: an even request or stream id. 51: a size outside the range. 52:
/// a command the check would refuse, as by a number of pairs that they are not.
/// 53: a command over `COMMAND_LONGEST`. 54: the output is shorter than the
/// frames together, for which `Request::most` is enough.
pub fn send(request: &Request, out: &mut [u8]) -> Sent {
    let data = request.data.unwrap_or_default();
    let mut written = 0;
    // Each pointer comes with its own length, and slices lent like this lie
    // apart wherever one of them is written.
    let number = unsafe {
        raw::hgrpc_send(
            request.name.as_ptr(),
            request.name.len(),
            request.pairs.as_ptr(),
            request.pairs.len(),
            request.count,
            request.id,
            request.stream,
            request.begin,
            request.end,
            request.size,
            request.data.is_some(),
            data.as_ptr(),
            data.len(),
            out.as_mut_ptr(),
            out.len(),
            &mut written,
        )
    };
    Sent { number, written }
}

/// What a converter answers: its number, and how many bytes it wrote to the output.
#[derive(Clone, Copy, Debug, PartialEq, Eq)]
pub struct Converted {
    pub number: u32,
    pub written: usize,
}

/// Rewrites a stored log whose body lengths have two bytes: a length, its low byte
/// first, two bytes of kind, which may be any, and the body, record behind record. In
/// the output each length has four bytes. 0: the log is at the front of the output,
/// whole, and the rest is as it was. 70 and 71, tried in number order: nothing is
/// written. 70: the log ends inside a record. 71: the output is shorter than the exact
/// total, for which `convert_most` is enough.
pub fn convert(log: &[u8], out: &mut [u8]) -> Converted {
    let mut written = 0;
    // Each pointer comes with its own length, and the slices lie apart.
    let number = unsafe {
        raw::hgrpc_convert(
            log.as_ptr(),
            log.len(),
            out.as_mut_ptr(),
            out.len(),
            &mut written,
        )
    };
    Converted { number, written }
}

/// How many bytes the whole records at the front of such a log have: all of them, or
/// the place, counted from 0, of the record that is broken.
pub fn whole(log: &[u8]) -> usize {
    // The pointer comes with its own length.
    unsafe { raw::hgrpc_whole(log.as_ptr(), log.len()) }
}

/// The bytes of output that are enough for `convert`, whatever the log of so many bytes:
/// each of its records has four at least. None if there are more than can be counted.
pub fn convert_most(length: usize) -> Option<usize> {
    length.checked_add(length / 4 * 2)
}

/// A log, 1 or 2, that ends inside a record, and the place, counted from 0, where that
/// record starts.
#[derive(Clone, Copy, Debug, PartialEq, Eq)]
pub struct Broken {
    pub log: u32,
    pub place: u64,
}

/// A record, counted from 1, that is not the same in both logs, in kind or body, or
/// that only one of them has; and the length of its body in each log that has it.
#[derive(Clone, Copy, Debug, PartialEq, Eq)]
pub struct LogEntry {
    pub number: u64,
    pub first: Option<u64>,
    pub second: Option<u64>,
}

impl LogEntry {
    /// By which logs have the record: 3 both, 1 the first, 2 the second, 0 none.
    fn read(logs: u32, entry: &raw::LogEntry) -> Option<LogEntry> {
        (logs != 0).then_some(LogEntry {
            number: entry.number,
            first: (logs & 1 != 0).then_some(entry.first),
            second: (logs & 2 != 0).then_some(entry.second),
        })
    }
}

/// The entries of two lent logs, in the order of their numbers.
#[derive(Clone, Debug)]
pub struct Differences<'l> {
    first: &'l [u8],
    second: &'l [u8],
    at: raw::LogPlace,
}

/// Compares two logs whose body lengths have four bytes: a length, its lowest byte
/// first, two bytes of kind, which may be any, and the body, record behind record. The
/// entries are those records that differ, and then those that only the longer log has:
/// none exactly where the logs are equal. A log that is broken is refused, the first
/// before the second.
pub fn differences<'l>(first: &'l [u8], second: &'l [u8]) -> Result<Differences<'l>, Broken> {
    let mut place = 0;
    // Each pointer comes with its own length.
    let log = unsafe {
        raw::hgrpc_logs_broken(
            first.as_ptr(),
            first.len(),
            second.as_ptr(),
            second.len(),
            &mut place,
        )
    };
    match log {
        0 => Ok(Differences {
            first,
            second,
            at: raw::LogPlace::START,
        }),
        _ => Err(Broken { log, place }),
    }
}

impl Iterator for Differences<'_> {
    type Item = LogEntry;

    fn next(&mut self) -> Option<LogEntry> {
        let mut entry = raw::LogEntry::default();
        // Each pointer comes with its own length.
        let logs = unsafe {
            raw::hgrpc_logs_next(
                self.first.as_ptr(),
                self.first.len(),
                self.second.as_ptr(),
                self.second.len(),
                &mut self.at,
                &mut entry,
            )
        };
        LogEntry::read(logs, &entry)
    }
}

/// What a step of a comparison answers: an entry, if one is to be told, and how many
/// bytes of each piece are done with.
#[derive(Clone, Copy, Debug, PartialEq, Eq)]
pub struct Step {
    pub entry: Option<LogEntry>,
    pub first_taken: usize,
    pub second_taken: usize,
}

/// A comparison of two logs that come in pieces, of which no record is held whole.
#[derive(Clone, Debug, Default, PartialEq, Eq)]
pub struct Comparing {
    state: raw::Comparing,
}

impl Comparing {
    pub fn new() -> Comparing {
        Comparing::default()
    }

    /// One step with the bytes of both logs that are at hand. `first_last` says that
    /// nothing of the first log follows its piece, `second_last` the same of the second.
    /// What is not taken of a piece is to be offered again, with what follows it. Where
    /// something of each log is at hand, or its end, and both logs are whole, a step
    /// takes a byte at least, till both are at their ends.
    pub fn step(
        &mut self,
        first: &[u8],
        first_last: bool,
        second: &[u8],
        second_last: bool,
    ) -> Step {
        let mut entry = raw::LogEntry::default();
        let (mut first_taken, mut second_taken) = (0, 0);
        // Each pointer comes with its own length.
        let logs = unsafe {
            raw::hgrpc_compare(
                &mut self.state,
                first.as_ptr(),
                first.len(),
                first_last,
                second.as_ptr(),
                second.len(),
                second_last,
                &mut first_taken,
                &mut second_taken,
                &mut entry,
            )
        };
        Step {
            entry: LogEntry::read(logs, &entry),
            first_taken,
            second_taken,
        }
    }

    /// Whether no record is under way in either log: where both logs are at their ends,
    /// both were whole.
    pub fn is_end(&self) -> bool {
        // The pointer is to a comparison.
        unsafe { raw::hgrpc_compared(&self.state) }
    }
}

/// A log that comes in pieces and is read through for a break.
#[derive(Clone, Debug, Default, PartialEq, Eq)]
pub struct Scanning {
    state: raw::Scanning,
}

impl Scanning {
    pub fn new() -> Scanning {
        Scanning::default()
    }

    /// Takes the next piece, all of it.
    pub fn take(&mut self, piece: &[u8]) {
        // The pointer comes with its own length.
        unsafe { raw::hgrpc_scan(&mut self.state, piece.as_ptr(), piece.len()) }
    }

    /// Where the record under way starts, counted from 0: if the log ends here, it is
    /// broken there. None if no record is under way.
    pub fn broken(&self) -> Option<u64> {
        let raw::Scanning { start, place, .. } = self.state;
        (start != place).then_some(start)
    }
}

fn part(bytes: &[u8], number: u32, at: usize, size: usize) -> Result<&[u8], u32> {
    match number {
        0 => Ok(&bytes[at..][..size]),
        _ => Err(number),
    }
}

/// What a record tells.
#[derive(Clone, Copy, Debug, PartialEq, Eq)]
pub enum Kind {
    /// A command is whole; the bit says whether data follows, and `loose` how it
    /// is written.
    Command,
    /// Data of a request; the bit says whether it is the last.
    Data,
}

#[derive(Clone, Copy, Debug, PartialEq, Eq)]
pub struct Record<'o> {
    pub kind: Kind,
    pub request: u16,
    pub bit: bool,
    /// Of a command, as `loose` has it: a head in it is not the shortest for its
    /// number. False of data.
    pub loose: bool,
    /// The whole command, or the payload of the data frame.
    pub bytes: &'o [u8],
}

impl Record<'_> {
    /// Whether the request runs now, so that a finish frees its slot: a command that
    /// no data follows, however it is written, or the last data.
    pub fn runs(&self) -> bool {
        (self.kind == Kind::Command) != self.bit
    }
}

/// The records in the first `written` bytes of an output, which stand here
/// alone. It ends where no whole record is left.
#[derive(Clone, Debug)]
pub struct Records<'o> {
    rest: &'o [u8],
}

pub fn records(written: &[u8]) -> Records<'_> {
    Records { rest: written }
}

impl<'o> Iterator for Records<'o> {
    type Item = Record<'o>;

    fn next(&mut self) -> Option<Record<'o>> {
        let two = |at: usize| {
            Some(u16::from_le_bytes([
                *self.rest.get(at)?,
                *self.rest.get(at + 1)?,
            ]))
        };
        let body = u32::from(two(0)?) | u32::from(two(2)?) << 16;
        let end = (body as usize).checked_add(6)?;
        let third = *self.rest.get(8)?;
        let record = Record {
            kind: match two(4)? {
                1 => Kind::Command,
                2 => Kind::Data,
                _ => return None,
            },
            request: two(6)?,
            bit: third & 1 == 1,
            loose: third >> 1 & 1 == 1,
            bytes: self.rest.get(RECORD_HEAD..end)?,
        };
        self.rest = &self.rest[end..];
        Some(record)
    }
}
