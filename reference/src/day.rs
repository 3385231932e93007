//! What the day crossed (document 02 [5]): a file brought up to date with a
//! series' high, low and close.
//!
//! Written are the flags of that series' rows and its PV, and no other byte.

use crate::account::{Barrier, Position};
use crate::position_row::{FLAG_KNOCKED_IN, FLAG_KNOCKED_OUT};
use crate::reader::{distance, read_account, Refusal, HIGHEST_PRICE, POSITION_BYTES, SERIES_BYTES};

/// What is received after the close: any numbers. Prices are in ticks.
#[derive(Clone, Copy, Debug, PartialEq, Eq)]
pub struct Day {
    pub series: u64,
    pub high: u64,
    pub low: u64,
    pub close: u64,
}

/// Where the flags stand in a position row.
pub const FLAGS_AT: usize = 4;

/// Brings the file up to date. The reading's refusals come first, then 16,
/// series not in the account, then 17, prices that no day can have. On a
/// refusal the bytes keep their content.
pub fn apply_day(bytes: &mut [u8], day: &Day) -> Result<(), Refusal> {
    let account = read_account(bytes)?;
    if day.series >= account.series.len() as u64 {
        return Err(Refusal { number: 16, row: 0 });
    }
    if !day.prices_right() {
        return Err(Refusal { number: 17, row: 0 });
    }

    let (series_count, position_count) = (account.series.len(), account.positions.len());
    let first_series = bytes.len() - distance(series_count, position_count);
    let first_position = first_series + SERIES_BYTES * series_count;

    for (row, position) in account.positions.iter().enumerate() {
        if position.series as u64 == day.series {
            bytes[first_position + POSITION_BYTES * row + FLAGS_AT] |= day.flag_for(position);
        }
    }
    // PV becomes the close. It stands first in a series row.
    let pv_at = first_series + SERIES_BYTES * day.series as usize;
    bytes[pv_at..pv_at + 4].copy_from_slice(&(day.close as u32).to_le_bytes());
    Ok(())
}

impl Day {
    /// 17: high below low, close outside them, or any of the three not 1 to
    /// 10,000,000.
    fn prices_right(&self) -> bool {
        let in_range = |price: u64| 1 <= price && price <= HIGHEST_PRICE as u64;
        self.high >= self.low
            && self.low <= self.close
            && self.close <= self.high
            && in_range(self.high)
            && in_range(self.low)
            && in_range(self.close)
    }

    /// The flag that the day sets in a row of its series, or no bit.
    fn flag_for(&self, position: &Position) -> u8 {
        let (high, low) = (self.high as i64, self.low as i64);
        match position.barrier {
            Barrier::UpAndIn(iu) if high >= iu => FLAG_KNOCKED_IN,
            Barrier::DownAndIn(id) if low <= id => FLAG_KNOCKED_IN,
            Barrier::UpAndOut(ou) if high >= ou => FLAG_KNOCKED_OUT,
            Barrier::DownAndOut(od) if low <= od => FLAG_KNOCKED_OUT,
            _ => 0,
        }
    }
}

/// What the day program writes for one file: `day`, or `refused` with number
/// and row, in a line; then the file's bytes after it and a line feed.
pub fn day_output(file: &[u8], day: &Day) -> Vec<u8> {
    let mut bytes = file.to_vec();
    let line = match apply_day(&mut bytes, day) {
        Ok(()) => "day\n".to_string(),
        Err(refusal) => format!("refused {} {}\n", refusal.number, refusal.row),
    };
    [line.as_bytes(), &bytes, b"\n"].concat()
}
