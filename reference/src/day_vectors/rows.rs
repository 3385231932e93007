//! The account that most cases are made of, and days for it.

use crate::day::Day;
use crate::draft::{Draft, PositionDraft, CALL, DOWN_AND_IN, DOWN_AND_OUT, UP_AND_IN, UP_AND_OUT};
use crate::vectors::rows::{held, is_up, one_series, written};

/// Barriers, in a series with PV 3000.
pub const UP: u32 = 3400;
pub const DOWN: u32 = 2600;

/// A day of series 0 that touches both barriers exactly.
pub const BOTH: Day = Day { series: 0, high: UP as u64, low: DOWN as u64, close: 3111 };

pub const KNOCK_INS_AND_OUTS: [u8; 4] = [UP_AND_IN, DOWN_AND_IN, UP_AND_OUT, DOWN_AND_OUT];

pub fn day(series: u64, high: u64, low: u64, close: u64) -> Day {
    Day { series, high, low, close }
}

/// The row with a barrier of the kind.
pub fn barred(row: PositionDraft, kind: u8, rebate: u32) -> PositionDraft {
    row.with_barrier(kind, if is_up(kind) { UP } else { DOWN }, rebate)
}

/// The row with the flag that a touch sets: 1 on a knock-in, 16 on a knock-out.
pub fn marked(row: PositionDraft) -> PositionDraft {
    if row.kind == UP_AND_IN || row.kind == DOWN_AND_IN {
        row.knocked_in()
    } else {
        row.knocked_out()
    }
}

/// Rows of every kind, held and written.
pub fn every_kind(series: u16) -> Vec<PositionDraft> {
    vec![
        written(series, 3100, 10),
        barred(written(series, 3100, 9), UP_AND_IN, 40),
        barred(held(series, 3000, 8), DOWN_AND_IN, 0).with_premium(2),
        barred(written(series, 2900, 7), UP_AND_OUT, 220),
        barred(held(series, 3050, 6), DOWN_AND_OUT, 35),
        held(series, 2950, 5).with_premium(20),
        barred(held(series, 2990, 4), UP_AND_IN, 10_000_000),
        barred(written(series, 3200, 3), DOWN_AND_IN, 1),
        barred(held(series, 3150, 2), UP_AND_OUT, 0).with_premium(7),
        barred(written(series, 2800, 1), DOWN_AND_OUT, 700),
    ]
}

/// An account of one call series with them.
pub fn one_of_every_kind() -> Draft {
    one_series(CALL, every_kind(0))
}

/// The rows with an up barrier, and those with a down barrier.
pub const UP_ROWS: [usize; 4] = [1, 3, 6, 8];
pub const DOWN_ROWS: [usize; 4] = [2, 4, 7, 9];

/// The rows of every kind that a day touches: up, down, both or none.
pub fn touched(up: bool, down: bool) -> Vec<usize> {
    let rows = |touched: bool, rows: [usize; 4]| if touched { rows.to_vec() } else { vec![] };
    [rows(up, UP_ROWS), rows(down, DOWN_ROWS)].concat()
}
