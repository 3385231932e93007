//! Deliberate changes of what a day does to a file, and of its answer.

use reference::account::{Account, Barrier, Position};
use reference::day::{Day, FLAGS_AT};
use reference::position_row::{FLAG_KNOCKED_IN, FLAG_KNOCKED_OUT};
use reference::reader::{distance, read_account, POSITION_BYTES, SERIES_BYTES};

use crate::changes::Change;
use crate::implementation::Answer;

/// Memory that may not be touched begins at a multiple of it.
const PAGE: usize = 4_096;

/// What is asked in place of this day.
pub fn day_asked(change: Change, day: &Day) -> Day {
    let low_half = |number: u64| number % (1 << 32);
    match change {
        Change::DaySeriesCut => Day { series: low_half(day.series), ..*day },
        Change::DayPricesCut => {
            let [high, low, close] = [day.high, day.low, day.close].map(low_half);
            Day { high, low, close, ..*day }
        }
        _ => *day,
    }
}

pub fn change_answer(change: Change, day: &Day, answer: Answer) -> Answer {
    match (change, answer.refusal) {
        (Change::DayValue, 0) => Answer { value: 1, ..answer },
        (Change::DayRefusal, 16) => Answer { refusal: 17, ..answer },
        (Change::DayRefusalRow, 17) => Answer { row: 1, ..answer },
        // The series is looked at before the file.
        (Change::DayReadingLast, 1..=11) if day.series > 31 => {
            Answer { refusal: 16, row: 0, value: 0 }
        }
        _ => answer,
    }
}

/// The bytes of the file after a day that was refused.
pub fn change_refused(change: Change, file: &mut [u8]) {
    if let (Change::DayOnRefusal, Some(last)) = (change, file.last_mut()) {
        *last ^= 1;
    }
}

/// The bytes of the file after a day that was applied.
pub fn change_applied(change: Change, before: &[u8], file: &mut [u8], day: &Day) {
    let Ok(account) = read_account(before) else { return };
    let first_series = file.len() - distance(account.series.len(), account.positions.len());
    let pv_at = first_series + SERIES_BYTES * day.series as usize;
    match change {
        Change::DayPv => file[pv_at..pv_at + 4].copy_from_slice(&before[pv_at..pv_at + 4]),
        Change::DayPvHigh => {
            file[pv_at..pv_at + 4].copy_from_slice(&(day.high as u32).to_le_bytes());
        }
        Change::DayAgain if before == file => file[pv_at] ^= 1,
        Change::DayCover if first_series > 0 => file[first_series - 1] ^= 1,
        _ => change_flags(change, &account, before, file, day),
    }
}

fn change_flags(change: Change, account: &Account, before: &[u8], file: &mut [u8], day: &Day) {
    let first_position = file.len() - distance(0, account.positions.len());
    for (row, position) in account.positions.iter().enumerate() {
        let flags = &mut file[first_position + POSITION_BYTES * row + FLAGS_AT];
        let flags_before = before[first_position + POSITION_BYTES * row + FLAGS_AT];
        let own = position.series as u64 == day.series;
        let (flag, by) = touch(position, day);
        match change {
            Change::DayTouchStrict if own && by == Some(0) => *flags = flags_before,
            Change::DayTouchLoose if own && by == Some(-1) => *flags |= flag,
            Change::DayOtherSeries if !own && by >= Some(0) => *flags |= flag,
            Change::DayToggles if own && by >= Some(0) => *flags = flags_before ^ flag,
            _ => {}
        }
    }
}

/// The row's flag, and by how much the day passes its barrier.
fn touch(position: &Position, day: &Day) -> (u8, Option<i64>) {
    let (high, low) = (day.high as i64, day.low as i64);
    match position.barrier {
        Barrier::None => (0, None),
        Barrier::UpAndIn(price) => (FLAG_KNOCKED_IN, Some(high - price)),
        Barrier::DownAndIn(price) => (FLAG_KNOCKED_IN, Some(price - low)),
        Barrier::UpAndOut(price) => (FLAG_KNOCKED_OUT, Some(high - price)),
        Barrier::DownAndOut(price) => (FLAG_KNOCKED_OUT, Some(price - low)),
    }
}

/// Writes to the byte after the file, unless that is where access ends.
pub fn write_beside(file: &mut [u8]) {
    let end = file.as_mut_ptr_range().end;
    if !(end as usize).is_multiple_of(PAGE) {
        // SAFETY: none. The memory lent to the library bears being written to.
        unsafe { end.write_volatile(0) };
    }
}
