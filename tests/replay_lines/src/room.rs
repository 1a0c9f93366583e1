//! Memory to lend to the calls.

use std::ffi::c_void;

/// Where a page that may not be touched stands.
#[derive(Clone, Copy, Debug, PartialEq, Eq)]
pub enum Edge {
    /// Nowhere: this is ordinary memory.
    None,
    /// Right behind the bytes lent.
    Behind,
    /// Right before them.
    Before,
}

/// Room for one buffer, of which as much is lent as a call asks for. With a
/// guard, what is lent lies against it, also where it is no bytes.
pub struct Room {
    bytes: &'static mut [u8],
    edge: Edge,
}

const PAGE: usize = 4096;
const NO_ACCESS: i32 = 0;
const READ_AND_WRITE: i32 = 3;
const PRIVATE_AND_ANONYMOUS: i32 = 0x22;

extern "C" {
    fn mmap(
        place: *mut c_void,
        length: usize,
        access: i32,
        flags: i32,
        file: i32,
        offset: i64,
    ) -> *mut c_void;
    fn mprotect(place: *mut c_void, length: usize, access: i32) -> i32;
}

/// Whole pages for this many bytes, with a page before and one behind that may
/// not be touched. They are never given back.
fn fenced(most: usize) -> &'static mut [u8] {
    let size = most.next_multiple_of(PAGE).max(PAGE);
    let all = size + 2 * PAGE;
    // The mapping is new, so nobody else has it, and the slice covers the part
    // that may be read and written.
    unsafe {
        let start = mmap(
            std::ptr::null_mut(),
            all,
            NO_ACCESS,
            PRIVATE_AND_ANONYMOUS,
            -1,
            0,
        );
        assert_ne!(start as isize, -1, "the system gives pages");
        let inner = start.cast::<u8>().add(PAGE);
        let status = mprotect(inner.cast(), size, READ_AND_WRITE);
        assert_eq!(status, 0, "the system opens pages");
        std::slice::from_raw_parts_mut(inner, size)
    }
}

impl Room {
    /// Room for `most` bytes.
    pub fn new(most: usize, edge: Edge) -> Room {
        let bytes = match edge {
            Edge::None => vec![0; most].leak(),
            _ => fenced(most),
        };
        Room { bytes, edge }
    }

    fn start(&self, length: usize) -> usize {
        match self.edge {
            Edge::Behind => self.bytes.len() - length,
            _ => 0,
        }
    }

    /// The bytes that stand where `lend` lends as many.
    pub fn lent(&self, length: usize) -> &[u8] {
        &self.bytes[self.start(length)..][..length]
    }

    pub fn lend(&mut self, length: usize) -> &mut [u8] {
        let start = self.start(length);
        &mut self.bytes[start..][..length]
    }

    /// Lends a copy of these bytes.
    pub fn put(&mut self, bytes: &[u8]) -> &mut [u8] {
        let lent = self.lend(bytes.len());
        lent.copy_from_slice(bytes);
        lent
    }
}
