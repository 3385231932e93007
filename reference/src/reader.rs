//! Bytes to account, or the first fault.
//!
//! Checked from top to bottom of the document's table: the trailer, then the
//! series rows, then the position rows; each row whole before the next; first
//! fault wins.

use crate::account::{Account, OptionType, Series};
use crate::position_row::read_position;

/// Why a file is turned back. The row is counted from 0 in its own table, and
/// is 0 where the fault is not in a row.
#[derive(Clone, Copy, Debug, PartialEq, Eq)]
pub struct Refusal {
    pub number: i64,
    pub row: usize,
}

pub const LONGEST_FILE: usize = 65_536;
pub const TRAILER_BYTES: usize = 12;
pub const SERIES_BYTES: usize = 24;
pub const POSITION_BYTES: usize = 32;

/// The highest price, rebate or premium, in ticks.
pub const HIGHEST_PRICE: i64 = 10_000_000;

pub fn read_account(bytes: &[u8]) -> Result<Account, Refusal> {
    let (series_count, position_count) =
        read_trailer(bytes).map_err(|number| Refusal { number, row: 0 })?;

    let first_series = bytes.len() - distance(series_count, position_count);
    let first_position = first_series + SERIES_BYTES * series_count;
    let end = first_position + POSITION_BYTES * position_count;

    let mut series = Vec::with_capacity(series_count);
    let series_rows = bytes[first_series..first_position].chunks_exact(SERIES_BYTES);
    for (row, row_bytes) in series_rows.enumerate() {
        series.push(read_series(row_bytes).map_err(|number| Refusal { number, row })?);
    }

    let mut positions = Vec::with_capacity(position_count);
    let position_rows = bytes[first_position..end].chunks_exact(POSITION_BYTES);
    for (row, row_bytes) in position_rows.enumerate() {
        positions
            .push(read_position(row_bytes, &series).map_err(|number| Refusal { number, row })?);
    }

    Ok(Account { series, positions })
}

/// From the file's end back to the first series row.
pub fn distance(series_count: usize, position_count: usize) -> usize {
    TRAILER_BYTES + SERIES_BYTES * series_count + POSITION_BYTES * position_count
}

/// The counts s and p, or the number of the refusal. An account may have no
/// positions; number 3, which was given for that, is given for nothing.
fn read_trailer(bytes: &[u8]) -> Result<(usize, usize), i64> {
    if bytes.len() < TRAILER_BYTES || bytes.len() > LONGEST_FILE {
        return Err(1);
    }
    let trailer = &bytes[bytes.len() - TRAILER_BYTES..];
    let s = u16_at(trailer, 0);
    let p = u16_at(trailer, 2);
    let stated_distance = u32_at(trailer, 4) as usize;
    let last_four = &trailer[8..12];

    if s == 0 || s > 32 || p > 256 || last_four != [0, 0, 0, 0] {
        return Err(2);
    }
    if stated_distance != distance(s, p) || stated_distance > bytes.len() {
        return Err(4);
    }
    Ok((s, p))
}

/// The series, or the number of the refusal.
fn read_series(row: &[u8]) -> Result<Series, i64> {
    let pv = u32_at(row, 0);
    let fa = u32_at(row, 4);
    let fb = u32_at(row, 8);
    let f3 = u32_at(row, 12);
    let m = u32_at(row, 16);
    let type_byte = row[20];
    let spare = &row[21..24];

    let in_range = within(1, pv, 10_000_000)
        && within(1_000_000, fa, 10_000_000)
        && within(0, fb, fa)
        && within(0, f3, 1_000_000)
        && within(1, m, 1_000);
    if !in_range {
        return Err(5);
    }

    if spare != [0, 0, 0] {
        return Err(6);
    }
    let option_type = match type_byte {
        0 => OptionType::Call,
        1 => OptionType::Put,
        _ => return Err(6),
    };

    Ok(Series { pv, fa, fb, f3, m, option_type })
}

pub(crate) fn within(least: i64, value: i64, most: i64) -> bool {
    least <= value && value <= most
}

pub(crate) fn u16_at(bytes: &[u8], at: usize) -> usize {
    u16::from_le_bytes([bytes[at], bytes[at + 1]]) as usize
}

pub(crate) fn u24_at(bytes: &[u8], at: usize) -> i64 {
    u32::from_le_bytes([bytes[at], bytes[at + 1], bytes[at + 2], 0]) as i64
}

pub(crate) fn u32_at(bytes: &[u8], at: usize) -> i64 {
    u32::from_le_bytes([bytes[at], bytes[at + 1], bytes[at + 2], bytes[at + 3]]) as i64
}
