//! The memory in which the library gets a file. Two copies stand there: one right behind pages that
//! may not be touched and one right before such pages, so that reading outside the file is a fault.

use std::ffi::{c_int, c_void};
use std::ptr::null_mut;
use std::slice::{from_raw_parts, from_raw_parts_mut};

use crate::files::LONGEST_MADE;

/// Both are multiples of 65,536, which is a multiple of the page size of every machine.
const FORBIDDEN: usize = 65_536;
const SPAN: usize = 2 * LONGEST_MADE;
/// Marked bytes beside a copy that may be written to.
const BESIDE: usize = 256;

const NO_ACCESS: c_int = 0;
const READ_AND_WRITE: c_int = 3;
const PRIVATE_WITHOUT_FILE: c_int = 0x22;

extern "C" {
    fn mmap(
        at: *mut c_void,
        bytes: usize,
        access: c_int,
        flags: c_int,
        file: c_int,
        from: i64,
    ) -> *mut c_void;
    fn mprotect(at: *mut c_void, bytes: usize, access: c_int) -> c_int;
}

pub struct Lending {
    first: *mut u8,
}

/// On which side of a copy the pages are that may not be touched.
#[derive(Clone, Copy, Debug, PartialEq, Eq)]
pub enum Place {
    BehindForbidden,
    BeforeForbidden,
}

impl Lending {
    pub fn new() -> Lending {
        let all = FORBIDDEN + SPAN + FORBIDDEN;
        // SAFETY: new pages are taken, and access is given to those in the middle.
        unsafe {
            let pages = mmap(null_mut(), all, NO_ACCESS, PRIVATE_WITHOUT_FILE, -1, 0);
            assert!(pages as isize != -1, "no memory");
            let first = pages.cast::<u8>().add(FORBIDDEN);
            assert!(mprotect(first.cast(), SPAN, READ_AND_WRITE) == 0, "no access to memory");
            Lending { first }
        }
    }

    /// The two copies of these bytes.
    pub fn lend(&mut self, bytes: &[u8]) -> [&[u8]; 2] {
        assert!(2 * bytes.len() <= SPAN);
        // SAFETY: both copies are in the span and do not overlap; nothing of the span is borrowed.
        unsafe {
            [0, SPAN - bytes.len()].map(|at| {
                let copy = self.first.add(at);
                copy.copy_from_nonoverlapping(bytes.as_ptr(), bytes.len());
                from_raw_parts(copy, bytes.len())
            })
        }
    }

    /// A copy of these bytes that may be written to, with marked bytes on its open side.
    pub fn lend_to_write(&mut self, bytes: &[u8], place: Place) -> &mut [u8] {
        assert!(bytes.len() + BESIDE <= SPAN);
        let (copy, beside) = self.places(bytes.len(), place);
        // SAFETY: both are in the span and do not overlap; nothing of the span is borrowed.
        unsafe {
            for at in 0..BESIDE {
                beside.add(at).write_volatile(mark(at));
            }
            copy.copy_from_nonoverlapping(bytes.as_ptr(), bytes.len());
            from_raw_parts_mut(copy, bytes.len())
        }
    }

    /// Are the bytes beside a copy of that length as they were marked?
    pub fn marks_kept(&self, length: usize, place: Place) -> bool {
        let (_, beside) = self.places(length, place);
        // SAFETY: the marked bytes are in the span.
        (0..BESIDE).all(|at| unsafe { beside.add(at).read_volatile() } == mark(at))
    }

    /// Where a copy of that length begins, and where the marked bytes beside it do.
    fn places(&self, length: usize, place: Place) -> (*mut u8, *mut u8) {
        let at = |place: usize| self.first.wrapping_add(place);
        match place {
            Place::BehindForbidden => (at(0), at(length)),
            Place::BeforeForbidden => (at(SPAN - length), at(SPAN - length - BESIDE)),
        }
    }
}

fn mark(at: usize) -> u8 {
    0xA5 ^ at as u8
}

impl Default for Lending {
    fn default() -> Lending {
        Lending::new()
    }
}
