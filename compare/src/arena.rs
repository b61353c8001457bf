//! Memory to lend from: guard bytes stand around a lent part, and pages that
//! may not be touched around the whole.

use crate::foreign::Lent;
use std::ffi::c_void;

extern "C" {
    fn mmap(
        at: *mut c_void,
        length: usize,
        access: i32,
        flags: i32,
        file: i32,
        from: i64,
    ) -> *mut c_void;
    fn mprotect(at: *mut c_void, length: usize, access: i32) -> i32;
}

const NO_ACCESS: i32 = 0;
const READ_WRITE: i32 = 3;
/// private and anonymous, as Linux numbers them
const FRESH_MEMORY: i32 = 0x22;
const PAGE: usize = 4_096;
const GUARDS: usize = 64;
const GUARD: u8 = 0xC3;

pub struct Arena {
    start: *mut u8,
    length: usize,
    lent: std::ops::Range<usize>,
}

/// Where in the arena a part is lent: a read or a write past its first or last
/// byte meets a forbidden page, or else guard bytes.
#[derive(Clone, Copy)]
pub enum Place {
    Start,
    End,
    Between(usize),
}

impl Arena {
    /// Room for parts of up to `most` bytes.
    pub fn new(most: usize) -> Arena {
        let length = (most + 2 * GUARDS + PAGE).div_ceil(PAGE) * PAGE;
        // SAFETY: fresh memory of this process; the arena's own from here on.
        let start = unsafe {
            let all = mmap(std::ptr::null_mut(), length + 2 * PAGE, NO_ACCESS, FRESH_MEMORY, -1, 0);
            assert!(all as isize != -1, "no memory");
            let start = all.cast::<u8>().add(PAGE);
            assert!(mprotect(start.cast(), length, READ_WRITE) == 0, "memory stays closed");
            start
        };
        Arena { start, length, lent: 0..0 }
    }

    fn bytes(&mut self) -> &mut [u8] {
        // SAFETY: the arena's own memory, all of it readable and writable.
        unsafe { std::slice::from_raw_parts_mut(self.start, self.length) }
    }

    /// A copy of the bytes, between guard bytes.
    pub fn lend(&mut self, bytes: &[u8], place: Place) -> Lent {
        let at = match place {
            Place::Start => 0,
            Place::End => self.length - bytes.len(),
            Place::Between(shift) => GUARDS + shift % GUARDS,
        };
        self.lent = at..at + bytes.len();
        for guards in self.guards() {
            self.bytes()[guards].fill(GUARD);
        }
        let lent = self.lent.clone();
        self.bytes()[lent].copy_from_slice(bytes);
        // SAFETY: inside the arena, or at its end for no bytes there.
        Lent { start: unsafe { self.start.add(at) }, length: bytes.len() }
    }

    /// The bytes that are lent, as they are now.
    pub fn now(&mut self) -> &[u8] {
        let lent = self.lent.clone();
        &self.bytes()[lent]
    }

    fn guards(&self) -> [std::ops::Range<usize>; 2] {
        let (from, to) = (self.lent.start, self.lent.end);
        [from.saturating_sub(GUARDS)..from, to..(to + GUARDS).min(self.length)]
    }

    pub fn guards_stay(&mut self) -> bool {
        let guards = self.guards();
        guards.into_iter().all(|part| self.bytes()[part].iter().all(|&byte| byte == GUARD))
    }
}
