//! Memory between two pages that may not be touched.

use std::ffi::{c_int, c_long, c_void};
use std::ops::Range;

extern "C" {
    fn mmap(
        at: *mut c_void,
        len: usize,
        protection: c_int,
        flags: c_int,
        file: c_int,
        offset: c_long,
    ) -> *mut c_void;
    fn mprotect(at: *mut c_void, len: usize, protection: c_int) -> c_int;
}

// Linux's values, which the static library is built for.
const NONE: c_int = 0;
const READ: c_int = 1;
const WRITE: c_int = 2;
const PRIVATE_ANONYMOUS: c_int = 0x22;

const PAGE: usize = 4_096;
/// A step over a few pages is seen too.
const GUARD: usize = 16 * PAGE;
/// What a caller's memory holds around a buffer.
const AROUND: u8 = 0xa5;

/// Which guard the buffer lies against.
#[derive(Clone, Copy, PartialEq)]
pub enum Edge {
    Before,
    Behind,
}

/// One buffer at a time, of any size up to whole pages. Lives as long as the program.
pub struct Guarded {
    memory: *mut u8,
    room: usize,
    /// What the memory held when it was lent.
    before: Vec<u8>,
    lent: Range<usize>,
    locked: bool,
}

impl Guarded {
    /// For buffers of so many bytes at most.
    pub fn new(most: usize) -> Guarded {
        let room = most.next_multiple_of(PAGE);
        // SAFETY: a fresh mapping at an address of the system's choice; its two ends lose all
        // access, and nobody else knows of it.
        unsafe {
            let (whole, access) = (GUARD + room + GUARD, READ | WRITE);
            let base = mmap(std::ptr::null_mut(), whole, access, PRIVATE_ANONYMOUS, -1, 0);
            assert!(base as isize != -1, "memory for a guarded buffer");
            let behind = base.byte_add(GUARD + room);
            let refused = mprotect(base, GUARD, NONE) | mprotect(behind, GUARD, NONE);
            assert_eq!(refused, 0, "guards before and behind a buffer");
            let memory = base.byte_add(GUARD).cast();
            Guarded { memory, room, before: vec![AROUND; room], lent: 0..0, locked: false }
        }
    }

    /// A buffer with these bytes against an edge, for reading and writing.
    pub fn lend(&mut self, bytes: &[u8], edge: Edge) -> *mut u8 {
        self.unlock();
        let start = if edge == Edge::Before { 0 } else { self.room - bytes.len() };
        self.lent = start..start + bytes.len();
        self.before.fill(AROUND);
        self.before[self.lent.clone()].copy_from_slice(bytes);
        // SAFETY: both are `room` bytes, apart, and the mapping's can be written; `start` is at most
        // `room`, so that the address is in the mapping.
        unsafe {
            self.memory.copy_from_nonoverlapping(self.before.as_ptr(), self.room);
            self.memory.add(start)
        }
    }

    /// A buffer with these bytes against an edge, for reading alone.
    pub fn lend_to_read(&mut self, bytes: &[u8], edge: Edge) -> *const u8 {
        let at = self.lend(bytes, edge);
        self.protect(READ);
        self.locked = true;
        at
    }

    fn unlock(&mut self) {
        if self.locked {
            self.protect(READ | WRITE);
            self.locked = false;
        }
    }

    fn protect(&mut self, access: c_int) {
        // SAFETY: what lies between the guards is this value's own.
        let refused = unsafe { mprotect(self.memory.cast(), self.room, access) };
        assert_eq!(refused, 0, "access to a buffer");
    }

    fn memory(&self) -> &[u8] {
        // SAFETY: what lies between the guards is this value's own and can be read.
        unsafe { std::slice::from_raw_parts(self.memory, self.room) }
    }

    /// The buffer as it is now.
    pub fn bytes(&self) -> &[u8] {
        &self.memory()[self.lent.clone()]
    }

    /// Fails where a byte has changed that is none of the buffer's first `written`.
    pub fn check(&self, name: &str, written: usize) -> Result<(), String> {
        let (start, size) = (self.lent.start, self.lent.len());
        if written > size {
            return Err(format!("{written} bytes said to be written to {size} of {name}"));
        }
        let (now, before) = (self.memory(), &self.before);
        let same = |range: Range<usize>| now[range.clone()] == before[range];
        if same(0..start) && same(start + written..self.room) {
            return Ok(());
        }
        let outside = (0..self.room)
            .find(|at| now[*at] != before[*at] && !(start..start + written).contains(at));
        let at = outside.unwrap_or(0) as isize - start as isize;
        Err(format!("byte {at} of {name} altered, of {size} lent and {written} to be written"))
    }
}
