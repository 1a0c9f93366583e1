//! Stored logs: records one behind another, each a body length, a kind of two
//! bytes and a body. A length has two bytes in the old logs and four in those of
//! E7, its low byte first. A log is read into a list of records, or it ends inside
//! one; the converter writes the list again.

/// The bytes of a body length, before E7 and since.
pub const OLD: usize = 2;
pub const NEW: usize = 4;
const KIND: usize = 2;

/// The kind may be any two bytes, and the body any bytes.
#[derive(Clone, Debug, PartialEq, Eq)]
pub struct Record<'l> {
    pub kind: [u8; KIND],
    pub body: &'l [u8],
}

/// A log as far as it is whole.
#[derive(Debug, PartialEq, Eq)]
pub struct Log<'l> {
    pub records: Vec<Record<'l>>,
    /// The bytes behind the last whole record: none of a whole log.
    pub broken: &'l [u8],
}

/// Reads a log whose lengths have this many bytes.
pub fn read(bytes: &[u8], width: usize) -> Log<'_> {
    let mut log = Log {
        records: Vec::new(),
        broken: bytes,
    };
    while let Some((record, behind)) = first(log.broken, width) {
        log.records.push(record);
        log.broken = behind;
    }
    log
}

/// The record at the front, and what stands behind it. None if it is not whole.
fn first(bytes: &[u8], width: usize) -> Option<(Record<'_>, &[u8])> {
    let (length, behind) = bytes.split_at_checked(width)?;
    let (kind, behind) = behind.split_at_checked(KIND)?;
    let low_last = length.iter().rev();
    let length = low_last.fold(0, |number, byte| 256 * number + usize::from(*byte));
    let (body, behind) = behind.split_at_checked(length)?;
    let kind = kind.try_into().ok()?;
    Some((Record { kind, body }, behind))
}

/// The bytes of records, with lengths of four bytes.
pub fn write(records: &[Record]) -> Vec<u8> {
    let parts = records.iter().flat_map(|record| {
        let length = (record.body.len() as u32).to_le_bytes();
        [length.to_vec(), record.kind.to_vec(), record.body.to_vec()]
    });
    parts.collect::<Vec<_>>().concat()
}

/// How many bytes the whole records at the front of an old log have.
pub fn whole(log: &[u8]) -> usize {
    log.len() - read(log, OLD).broken.len()
}

#[derive(Clone, Copy, Debug, PartialEq, Eq)]
pub struct Converted {
    pub number: u8,
    pub written: usize,
}

/// Writes an old log with lengths of four bytes, whole, or refuses it.
pub fn convert(log: &[u8], output: &mut [u8]) -> Converted {
    let refused = |number: u8| Converted { number, written: 0 };
    let log = read(log, OLD);
    if !log.broken.is_empty() {
        return refused(70);
    }
    let converted = write(&log.records);
    let Some(front) = output.get_mut(..converted.len()) else {
        return refused(71);
    };
    front.copy_from_slice(&converted);
    Converted {
        number: 0,
        written: converted.len(),
    }
}

#[cfg(test)]
mod tests {
    use super::*;

    /// Three records: a body of two bytes, an empty one, and one of 256 bytes.
    fn log() -> Vec<u8> {
        let long = [&[0, 1, 0xff, 0xff][..], &[7; 256]].concat();
        [&b"\x02\0\x01\0hi\0\0\x02\x09"[..], &long].concat()
    }

    fn converted(log: &[u8], length: usize) -> Result<Vec<u8>, u8> {
        let mut output = vec![0xa5; length];
        let Converted { number, written } = convert(log, &mut output);
        assert!(output[written..].iter().all(|byte| *byte == 0xa5));
        output.truncate(written);
        match number {
            0 => Ok(output),
            _ => {
                assert_eq!(written, 0);
                Err(number)
            }
        }
    }

    #[test]
    fn lengths_grow() {
        let long = [&[0, 1, 0, 0, 0xff, 0xff][..], &[7; 256]].concat();
        let wanted = [&b"\x02\0\0\0\x01\0hi\0\0\0\0\x02\x09"[..], &long].concat();
        let total = log().len() + 3 * 2;
        for length in [total, total + 1, total + 100] {
            assert_eq!(converted(&log(), length).as_ref(), Ok(&wanted));
        }
        assert_eq!(converted(&log(), total - 1), Err(71));
        assert_eq!(converted(&log(), 0), Err(71));
        assert_eq!(read(&wanted, NEW), read(&log(), OLD));
    }

    /// Cut at every place: whole at four of them only, and 70 before 71.
    #[test]
    fn cuts() {
        let log = log();
        let ends = [0, 6, 10, log.len()];
        for length in 0..=log.len() {
            let end = ends.into_iter().filter(|end| *end <= length).max();
            assert_eq!(whole(&log[..length]), end.unwrap_or_default(), "{length}");
            let number = match (ends.contains(&length), length) {
                (false, _) => Err(70),
                (true, 0) => Ok(vec![]),
                (true, _) => Err(71),
            };
            assert_eq!(converted(&log[..length], 0), number, "{length}");
        }
    }

    /// The longest body that an old log has, and a length that is one too many.
    #[test]
    fn longest_body() {
        let log = [&[0xff, 0xff, 1, 2][..], &[7; 0xffff]].concat();
        let wanted = [&[0xff, 0xff, 0, 0, 1, 2][..], &[7; 0xffff]].concat();
        assert_eq!(converted(&log, 80_000), Ok(wanted));
        assert_eq!(converted(&log[..log.len() - 1], 80_000), Err(70));
    }
}
