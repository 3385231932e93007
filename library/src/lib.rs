//! The C entries of include/serpentgleam.h.

use std::ptr::{null, null_mut};

/// Entries of a list that is long enough for every account: two for each of 256 positions.
pub const LONGEST_LIST: usize = 512;

/// `struct serpentgleam_line`: kind, first, second, third, fourth.
pub type Line = [u64; 5];

/// `struct serpentgleam_result`.
#[repr(C)]
#[derive(Clone, Copy, Debug, PartialEq, Eq)]
pub struct Margin {
    pub refusal: u64,
    pub row: u64,
    pub lines: u64,
    pub total: u64,
}

/// `struct serpentgleam_answer`.
#[repr(C)]
#[derive(Clone, Copy, Debug, PartialEq, Eq)]
pub struct Answer {
    pub refusal: u64,
    pub row: u64,
    pub value: u64,
}

/// `struct serpentgleam_factors`.
#[repr(C)]
#[derive(Clone, Copy, Debug, PartialEq, Eq)]
pub struct Factors {
    pub refusal: u64,
    pub row: u64,
    pub fa: u64,
    pub fb: u64,
}

extern "C" {
    fn serpentgleam_margin(file: *const u8, length: usize, lines: *mut Line, room: usize)
        -> Margin;
    fn serpentgleam_position_amount(file: *const u8, length: usize, row: u64) -> i64;
    fn serpentgleam_premiums(file: *const u8, length: usize) -> Answer;
    fn serpentgleam_factors(code: u64, days: u64) -> Factors;
    fn serpentgleam_day(
        file: *mut u8,
        length: usize,
        series: u64,
        high: u64,
        low: u64,
        close: u64,
    ) -> Answer;
    fn serpentgleam_pair(
        file: *const u8,
        length: usize,
        lines: *mut Line,
        room: usize,
        count: u64,
        allowance: u64,
    ) -> Answer;
    fn serpentgleam_amount_so_far(
        file: *const u8,
        length: usize,
        lines: *const Line,
        room: usize,
        count: u64,
    ) -> Answer;
    fn serpentgleam_take_apart(
        file: *const u8,
        length: usize,
        lines: *mut Line,
        room: usize,
        count: u64,
        k: u64,
    ) -> Answer;
    fn serpentgleam_load(seed: u64, p: u64, buffer: *mut u8, room: usize) -> Answer;
}

type MarginEntry = unsafe extern "C" fn(*const u8, usize, *mut Line, usize) -> Margin;
type PositionAmountEntry = unsafe extern "C" fn(*const u8, usize, u64) -> i64;

/// The file's margin, its lines in the list.
#[inline]
pub fn margin(file: &[u8], list: &mut [Line]) -> Margin {
    margin_by(serpentgleam_margin, file, list)
}

/// The amount of one position, or minus the refusal's number.
#[inline]
pub fn position_amount(file: &[u8], row: u64) -> i64 {
    position_amount_by(serpentgleam_position_amount, file, row)
}

/// The premiums of the file's held rows.
#[inline]
pub fn premiums(file: &[u8]) -> Answer {
    // SAFETY: the file is as long as is said.
    unsafe { serpentgleam_premiums(start_of(file), file.len()) }
}

/// fa and fb of a code and a number of days.
#[inline]
pub fn factors(code: u64, days: u64) -> Factors {
    // SAFETY: no memory is handed over.
    unsafe { serpentgleam_factors(code, days) }
}

/// Brings the file up to date after a day of a series. On a refusal its bytes keep their content.
#[inline]
pub fn day(file: &mut [u8], series: u64, high: u64, low: u64, close: u64) -> Answer {
    let start = if file.is_empty() { null_mut() } else { file.as_mut_ptr() };
    // SAFETY: the file is as long as is said.
    unsafe { serpentgleam_day(start, file.len(), series, high, low, close) }
}

/// Makes at most so many pairs more after the first `count` lines of the list, and writes them behind those.
#[inline]
pub fn pair(file: &[u8], list: &mut [Line], count: u64, allowance: u64) -> Answer {
    let lines = if list.is_empty() { null_mut() } else { list.as_mut_ptr() };
    // SAFETY: the file and the list are as long as is said, and do not overlap.
    unsafe { serpentgleam_pair(start_of(file), file.len(), lines, list.len(), count, allowance) }
}

/// The account's amount after the first `count` lines of the list.
#[inline]
pub fn amount_so_far(file: &[u8], list: &[Line], count: u64) -> Answer {
    let lines = if list.is_empty() { null() } else { list.as_ptr() };
    // SAFETY: the file and the list are as long as is said.
    unsafe { serpentgleam_amount_so_far(start_of(file), file.len(), lines, list.len(), count) }
}

/// Removes the latest `k` of the first `count` lines of the list, whose entries become zeros, and gives how many are left.
#[inline]
pub fn take_apart(file: &[u8], list: &mut [Line], count: u64, k: u64) -> Answer {
    let lines = if list.is_empty() { null_mut() } else { list.as_mut_ptr() };
    // SAFETY: the file and the list are as long as is said, and do not overlap.
    unsafe { serpentgleam_take_apart(start_of(file), file.len(), lines, list.len(), count, k) }
}

/// Makes the file of a seed and so many rows at the start of the buffer, and gives its number of bytes. The bytes after it, and
/// on a refusal all of them, keep their content.
#[inline]
pub fn load(seed: u64, p: u64, buffer: &mut [u8]) -> Answer {
    let start = if buffer.is_empty() { null_mut() } else { buffer.as_mut_ptr() };
    // SAFETY: the buffer is as long as is said.
    unsafe { serpentgleam_load(seed, p, start, buffer.len()) }
}

/// Entries of an earlier archive, by the names that bench/against gives them. They are declared as today's are, so an archive
/// with another header cannot be asked. A program that calls none of them is linked without that archive.
pub mod earlier {
    use super::{margin_by, position_amount_by, Line, Margin};

    extern "C" {
        fn earlier_serpentgleam_margin(
            file: *const u8,
            length: usize,
            lines: *mut Line,
            room: usize,
        ) -> Margin;
        fn earlier_serpentgleam_position_amount(file: *const u8, length: usize, row: u64) -> i64;
    }

    /// The file's margin, its lines in the list.
    #[inline]
    pub fn margin(file: &[u8], list: &mut [Line]) -> Margin {
        margin_by(earlier_serpentgleam_margin, file, list)
    }

    /// The amount of one position, or minus the refusal's number.
    #[inline]
    pub fn position_amount(file: &[u8], row: u64) -> i64 {
        position_amount_by(earlier_serpentgleam_position_amount, file, row)
    }
}

/// The margin by an entry declared above.
#[inline]
fn margin_by(entry: MarginEntry, file: &[u8], list: &mut [Line]) -> Margin {
    let lines = if list.is_empty() { null_mut() } else { list.as_mut_ptr() };
    // SAFETY: the file and the list are as long as is said, and do not overlap.
    unsafe { entry(start_of(file), file.len(), lines, list.len()) }
}

/// The amount by an entry declared above.
#[inline]
fn position_amount_by(entry: PositionAmountEntry, file: &[u8], row: u64) -> i64 {
    // SAFETY: the file is as long as is said.
    unsafe { entry(start_of(file), file.len(), row) }
}

/// NULL for a file without bytes.
fn start_of(file: &[u8]) -> *const u8 {
    if file.is_empty() {
        null()
    } else {
        file.as_ptr()
    }
}
