//! Buffers as a host lends them, with what lies around them watched. On one side of a buffer a canary must stay as it was; on the other side lies, at
//! once, memory that may not be touched: a call that reads or writes there ends the program.
use std::{ffi::c_void, ptr, slice};

const PAGE: usize = 4096;
const CANARY: usize = 64;

const PROT_NONE: i32 = 0;
const PROT_READ_WRITE: i32 = 3;
const MAP_PRIVATE_ANONYMOUS_NORESERVE: i32 = 0x4022;

extern "C" {
    fn mmap(
        at: *mut c_void,
        length: usize,
        prot: i32,
        flags: i32,
        fd: i32,
        from: i64,
    ) -> *mut c_void;
    fn mprotect(at: *mut c_void, length: usize, prot: i32) -> i32;
}

/// Room for one buffer at a time, with untouchable memory before and behind it.
pub struct Arena {
    room: *mut u8,
    size: usize,
}

impl Arena {
    /// An arena for buffers of up to `most` bytes. It lives as long as the program.
    pub fn new(most: usize) -> Arena {
        let size = (most + CANARY).div_ceil(PAGE) * PAGE;
        unsafe {
            let whole = mmap(
                ptr::null_mut(),
                size + 2 * PAGE,
                PROT_NONE,
                MAP_PRIVATE_ANONYMOUS_NORESERVE,
                -1,
                0,
            );
            assert!(whole as isize != -1, "no memory for an arena");
            let room = (whole as *mut u8).add(PAGE);
            assert_eq!(mprotect(room as *mut c_void, size, PROT_READ_WRITE), 0);
            Arena { room, size }
        }
    }

    /// Lends a copy of the bytes, close to the untouchable memory behind it (or, if not, before it).
    pub fn lend<'a>(&'a mut self, bytes: &'a [u8], at_end: bool) -> Lent<'a> {
        assert!(bytes.len() + CANARY <= self.size);
        let start = if at_end { self.size - bytes.len() } else { 0 };
        let canary = if at_end { start - CANARY } else { bytes.len() };
        unsafe {
            let place = self.room.add(start);
            ptr::copy_nonoverlapping(bytes.as_ptr(), place, bytes.len());
            let canary = self.room.add(canary);
            ptr::copy_nonoverlapping(CANARIES.as_ptr(), canary, CANARY);
            Lent {
                place,
                canary,
                was: bytes,
            }
        }
    }
}

static CANARIES: [u8; CANARY] =
    *b"Nothing was lent here: whoever reads or writes this is at fault.";

/// A lent buffer, and what it held at first. The calls get its place; nothing else writes there.
pub struct Lent<'a> {
    place: *mut u8,
    canary: *const u8,
    was: &'a [u8],
}

impl Lent<'_> {
    pub fn place(&self) -> *mut u8 {
        self.place
    }

    pub fn length(&self) -> usize {
        self.was.len()
    }

    pub fn was(&self) -> &[u8] {
        self.was
    }

    /// Whether the bytes are these, and the canary is as it was.
    pub fn holds(&self, bytes: &[u8]) -> bool {
        unsafe {
            slice::from_raw_parts(self.place, self.length()) == bytes
                && slice::from_raw_parts(self.canary, CANARY) == CANARIES
        }
    }

    /// Whether all is as it was lent.
    pub fn kept(&self) -> bool {
        self.holds(self.was)
    }
}

/// A number that a call may set, between two canaries.
#[repr(C)]
pub struct Out<T> {
    before: u64,
    value: T,
    after: u64,
}

const BEFORE: u64 = 0xB5B5_0123_4567_B5B5;
const AFTER: u64 = 0xA5A5_89AB_CDEF_A5A5;

impl<T: Copy> Out<T> {
    pub fn new(value: T) -> Out<T> {
        Out {
            before: BEFORE,
            value,
            after: AFTER,
        }
    }

    /// Where the number is; the pointer may reach the canaries too, so that the compiler takes nothing about them for granted.
    pub fn place(&mut self) -> *mut T {
        let whole: *mut Out<T> = self;
        unsafe { ptr::addr_of_mut!((*whole).value) }
    }

    pub fn value(&self) -> T {
        self.value
    }

    pub fn intact(&self) -> bool {
        self.before == BEFORE && self.after == AFTER
    }
}
