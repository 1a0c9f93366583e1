//! Two logs compared, as E10 has it. Both are read into lists of records, and the
//! lists are laid side by side.

use crate::log::{read, Record, NEW};

/// A record, counted from 1, that is not the same in both logs, and the length of
/// its body in each log that has it.
#[derive(Clone, Copy, Debug, PartialEq, Eq)]
pub struct Entry {
    pub number: u64,
    pub first: Option<usize>,
    pub second: Option<usize>,
}

/// A log, 1 or 2, that ends inside a record, and where that record starts.
#[derive(Clone, Copy, Debug, PartialEq, Eq)]
pub struct Broken {
    pub log: u32,
    pub place: usize,
}

/// Every record that differs, and then those that only the longer log has.
pub fn compare(first: &[u8], second: &[u8]) -> Result<Vec<Entry>, Broken> {
    let first = records(1, first)?;
    let second = records(2, second)?;
    Ok(entries(&first, &second))
}

/// The records of a log that is whole.
fn records(log: u32, bytes: &[u8]) -> Result<Vec<Record<'_>>, Broken> {
    let read = read(bytes, NEW);
    match read.broken.len() {
        0 => Ok(read.records),
        left => Err(Broken {
            log,
            place: bytes.len() - left,
        }),
    }
}

fn entries(first: &[Record], second: &[Record]) -> Vec<Entry> {
    let both = first.len().min(second.len());
    let longest = first.len().max(second.len());
    let differ = (0..both).filter(|place| first[*place] != second[*place]);
    let length = |record: &Record| record.body.len();
    let entry = |place: usize| Entry {
        number: place as u64 + 1,
        first: first.get(place).map(length),
        second: second.get(place).map(length),
    };
    differ.chain(both..longest).map(entry).collect()
}

/// What the program `logdiff` writes of two files, of which one that cannot be read
/// is None here.
pub fn lines(first: Option<&[u8]>, second: Option<&[u8]>) -> String {
    let fault = fault(1, first).or_else(|| fault(2, second));
    fault.unwrap_or_else(|| {
        let both = first.zip(second).expect("both files are read");
        let entries = compare(both.0, both.1).expect("both logs are whole");
        entries.iter().map(line).collect()
    })
}

/// What is wrong with a file, if something is.
fn fault(log: u32, bytes: Option<&[u8]>) -> Option<String> {
    let Some(bytes) = bytes else {
        return Some(format!("unread {log}\n"));
    };
    let broken = records(log, bytes).err()?;
    Some(format!("broken {log} {}\n", broken.place))
}

fn line(entry: &Entry) -> String {
    let [first, second] = [entry.first, entry.second].map(length_text);
    format!("{} {first} {second}\n", entry.number)
}

/// A body's length, `-` of a record that is not there.
pub fn length_text(length: Option<usize>) -> String {
    length.map_or("-".to_string(), |length| length.to_string())
}

#[cfg(test)]
mod tests {
    use super::*;

    /// Records of two bytes, of none and of three.
    const LOG: &[u8] = b"\x02\0\0\0\x01\0hi\0\0\0\0\x02\x09\x03\0\0\0\x01\0abc";
    const ENDS: [usize; 4] = [0, 8, 14, 23];

    fn entry(number: u64, first: Option<usize>, second: Option<usize>) -> Entry {
        Entry {
            number,
            first,
            second,
        }
    }

    /// The log with another byte at a place.
    fn changed(place: usize, byte: u8) -> Vec<u8> {
        let mut log = LOG.to_vec();
        log[place] = byte;
        log
    }

    #[test]
    fn equal_logs() {
        for end in ENDS {
            assert_eq!(compare(&LOG[..end], &LOG[..end]), Ok(vec![]));
        }
    }

    /// Another kind, in its low byte and its high one, and another byte of a body:
    /// the first and the last.
    #[test]
    fn other_bytes() {
        for (place, number, length) in [(4, 1, 2), (5, 1, 2), (13, 2, 0), (20, 3, 3), (22, 3, 3)] {
            let wanted = entry(number, Some(length), Some(length));
            assert_eq!(compare(LOG, &changed(place, 0x55)), Ok(vec![wanted]));
            assert_eq!(compare(&changed(place, 0x55), LOG), Ok(vec![wanted]));
        }
    }

    /// A record that is left out, so that the ones behind it stand against others.
    #[test]
    fn left_out() {
        let left = [&LOG[..8], &LOG[14..]].concat();
        let wanted = [entry(2, Some(0), Some(3)), entry(3, Some(3), None)];
        assert_eq!(compare(LOG, &left), Ok(wanted.to_vec()));
        let wanted = [entry(2, Some(3), Some(0)), entry(3, None, Some(3))];
        assert_eq!(compare(&left, LOG), Ok(wanted.to_vec()));
    }

    #[test]
    fn no_bytes() {
        let lengths = [2, 0, 3];
        let alone = |place: usize| entry(place as u64 + 1, Some(lengths[place]), None);
        assert_eq!(compare(LOG, b""), Ok((0..3).map(alone).collect()));
        let alone = |place: usize| entry(place as u64 + 1, None, Some(lengths[place]));
        assert_eq!(compare(b"", LOG), Ok((0..3).map(alone).collect()));
    }

    /// Cut at every place of either: the first log's place, else the second's.
    #[test]
    fn cuts() {
        let start = |end: usize| ENDS.into_iter().filter(|start| *start <= end).max();
        let broken = |log: u32, end: usize| {
            let place = start(end).filter(|place| *place != end)?;
            Some(Broken { log, place })
        };
        for first in 0..=LOG.len() {
            for second in 0..=LOG.len() {
                let answer = compare(&LOG[..first], &LOG[..second]).err();
                let wanted = broken(1, first).or(broken(2, second));
                assert_eq!(answer, wanted, "{first} {second}");
            }
        }
    }

    #[test]
    fn longest_claim() {
        let log = b"\0\0\0\0\x01\0\xff\xff\xff\xff\x01\0abc";
        let answer = compare(b"", log);
        assert_eq!(answer, Err(Broken { log: 2, place: 6 }));
    }

    #[test]
    fn texts() {
        let cut = &LOG[..9];
        for (first, second, wanted) in [
            (Some(LOG), Some(LOG), ""),
            (Some(&LOG[..14]), Some(LOG), "3 - 3\n"),
            (Some(LOG), Some(&LOG[8..]), "1 2 0\n2 0 3\n3 3 -\n"),
            (Some(cut), Some(LOG), "broken 1 8\n"),
            (Some(LOG), Some(cut), "broken 2 8\n"),
            (Some(cut), None, "broken 1 8\n"),
            (None, Some(cut), "unread 1\n"),
            (None, None, "unread 1\n"),
            (Some(LOG), None, "unread 2\n"),
        ] {
            assert_eq!(lines(first, second), wanted);
        }
    }
}
