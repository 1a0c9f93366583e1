//! Logs that are lent whole.

use crate::pieces::entry_of;
use crate::{ends, fail, front};
use generate::Random;
use hgrpc::raw::{self, LogEntry, LogPlace};
use replay_lines::{Edge, Room};
use second::differences::{compare, Broken, Entry};

/// The most bytes of a log.
const LOG: usize = 300_000;

/// Logs are lent against an edge.
pub struct Lent {
    rooms: [Room; 2],
}

impl Lent {
    pub fn new(edge: Edge) -> Lent {
        Lent {
            rooms: [Room::new(LOG, edge), Room::new(LOG, edge)],
        }
    }

    /// Whether a log is broken; the entries; and those from some places on.
    pub fn check(&mut self, logs: [&[u8]; 2], random: &mut Random) {
        let [one, other] = &mut self.rooms;
        let lent: [&[u8]; 2] = [one.put(logs[0]), other.put(logs[1])];
        let told = broken(lent);
        let wanted = compare(logs[0], logs[1]).err();
        if told != wanted {
            fail(&format!(
                "difference: {told:?}, not {wanted:?}, of {logs:02x?}"
            ));
        }
        let all = entries(lent, &mut { LogPlace::START });
        if compare(logs[0], logs[1]).is_ok_and(|wanted| wanted != all) {
            fail(&format!("difference: {all:?} of {logs:02x?}"));
        }
        from(lent, LogPlace::START);
        for _ in 0..4 {
            from(lent, place(logs, random));
        }
        let kept = [&self.rooms[0], &self.rooms[1]];
        for (room, log) in kept.into_iter().zip(logs) {
            assert!(room.lent(log.len()) == log, "a log is only read");
        }
    }
}

fn broken([first, second]: [&[u8]; 2]) -> Option<Broken> {
    let mut place = u64::MAX;
    // Each pointer comes with its own length.
    let log = unsafe {
        raw::hgrpc_logs_broken(
            first.as_ptr(),
            first.len(),
            second.as_ptr(),
            second.len(),
            &mut place,
        )
    };
    if log == 0 && place != 0 {
        fail(&format!(
            "difference: both are whole, and the place is {place}"
        ));
    }
    let place = place as usize;
    (log != 0).then_some(Broken { log, place })
}

/// A place of each log: where a record starts, any, or past the end; and any number.
fn place(logs: [&[u8]; 2], random: &mut Random) -> LogPlace {
    let [first, second] = logs.map(|log| {
        let start = random.pick(&ends(log));
        let any = random.below(log.len() + 1);
        let past = log.len() + random.pick(&[1, 6, usize::MAX / 2]);
        random.pick(&[start, start, start, any, past, usize::MAX])
    });
    let (any, small) = (random.next(), random.below(9) as u64);
    let number = random.pick(&[1, small, any, u64::MAX, u64::MAX - small]);
    LogPlace {
        number,
        first,
        second,
    }
}

/// The entries from a place on, held to those of what stands there. Behind the last the place is behind the last whole
/// records, and there is none from there on.
fn from(logs: [&[u8]; 2], start: LogPlace) {
    let rests = [
        logs[0].get(start.first..).map_or(&[][..], front),
        logs[1].get(start.second..).map_or(&[][..], front),
    ];
    let mut at = start;
    let told = entries(logs, &mut at);
    let wanted = compare(rests[0], rests[1]).expect("the fronts are whole");
    let numbered = wanted.into_iter().map(|entry| Entry {
        number: start.number.wrapping_add(entry.number - 1),
        ..entry
    });
    let wanted: Vec<Entry> = numbered.collect();
    if told != wanted {
        fail(&format!(
            "difference: {told:?}, not {wanted:?}, from {start:?} of {logs:02x?}"
        ));
    }
    let counts = rests.map(|rest| ends(rest).len() as u64 - 1);
    let end = LogPlace {
        number: start.number.wrapping_add(counts[0].max(counts[1])),
        first: start.first.wrapping_add(rests[0].len()),
        second: start.second.wrapping_add(rests[1].len()),
    };
    if at != end || !entries(logs, &mut at).is_empty() || at != end {
        fail(&format!(
            "difference: {at:?} behind the last, not {end:?}, of {logs:02x?}"
        ));
    }
}

/// The entries from a place on. Behind each the place is behind its record.
fn entries([first, second]: [&[u8]; 2], at: &mut LogPlace) -> Vec<Entry> {
    let mut entries = Vec::new();
    loop {
        let mut entry = LogEntry {
            number: 9,
            first: 9,
            second: 9,
        };
        // Each pointer comes with its own length.
        let logs = unsafe {
            raw::hgrpc_logs_next(
                first.as_ptr(),
                first.len(),
                second.as_ptr(),
                second.len(),
                at,
                &mut entry,
            )
        };
        let Some(entry) = entry_of(logs, &entry) else {
            return entries;
        };
        if at.number != entry.number.wrapping_add(1) {
            fail(&format!("difference: {at:?} behind {entry:?}"));
        }
        entries.push(entry);
    }
}
