//! Rows and series that the cases are made of.

use crate::draft::{
    Draft, PositionDraft, SeriesDraft, CALL, DOWN_AND_IN, DOWN_AND_OUT, HELD, NO_BARRIER, PUT,
    UP_AND_IN, UP_AND_OUT, WRITTEN,
};

pub fn written(series: u16, strike: u32, quantity: u32) -> PositionDraft {
    PositionDraft::plain(series, WRITTEN, strike, quantity)
}

pub fn held(series: u16, strike: u32, quantity: u32) -> PositionDraft {
    PositionDraft::plain(series, HELD, strike, quantity)
}

/// Every kind of barrier, and none.
pub const KINDS: [u8; 5] = [NO_BARRIER, UP_AND_IN, DOWN_AND_IN, UP_AND_OUT, DOWN_AND_OUT];

pub fn is_up(kind: u8) -> bool {
    kind == UP_AND_IN || kind == UP_AND_OUT
}

/// The row with a barrier of the kind, within reach and on its side of PV 3000.
pub fn within_reach(row: PositionDraft, kind: u8, rebate: u32) -> PositionDraft {
    match kind {
        NO_BARRIER => row,
        _ => row.with_barrier(kind, if is_up(kind) { 3450 } else { 2550 }, rebate),
    }
}

/// The row of a call as one of a put: every price as far on the other side of
/// PV 3000, and a barrier of the other direction.
pub fn mirrored(row: &PositionDraft) -> PositionDraft {
    let across = |price: u32| if price == 0 { 0 } else { 6000 - price };
    let [strike, limiter, barrier] = [row.strike, row.limiter, row.barrier].map(across);
    let kind = match row.kind {
        UP_AND_IN => DOWN_AND_IN,
        DOWN_AND_IN => UP_AND_IN,
        UP_AND_OUT => DOWN_AND_OUT,
        DOWN_AND_OUT => UP_AND_OUT,
        _ => NO_BARRIER,
    };
    PositionDraft { kind, strike, limiter, barrier, ..*row }
}

/// The two series of the checked values, call and put.
pub fn checked_series() -> Vec<SeriesDraft> {
    vec![SeriesDraft::checked(CALL), SeriesDraft::checked(PUT)]
}

/// An account of one series of the checked values.
pub fn one_series(type_byte: u8, rows: Vec<PositionDraft>) -> Draft {
    Draft::new(vec![SeriesDraft::checked(type_byte)], rows)
}

/// The series of the checked values with PV 3001, and a high or a low factor
/// for which H or L leaves this remainder of a million. Gives H or L too.
pub fn series_with_remainder(type_byte: u8, high: bool, remainder: u64) -> (SeriesDraft, u64) {
    let mut series = SeriesDraft { pv: 3001, ..SeriesDraft::checked(type_byte) };
    let mut factors = if high { 1_000_001..=2_000_000 } else { 1..=999_999u64 };
    let leaves = |factor: &u64| (series.pv as u64 * factor) % 1_000_000 == remainder;
    let factor = factors.find(leaves).expect("a factor");
    let edge = series.pv as u64 * factor;
    if high {
        series.fa = factor as u32;
    } else {
        series.fb = factor as u32;
    }
    (series, edge)
}

/// A sound account for faults to be put into: three series, five rows.
pub fn sound() -> Draft {
    let mut last_series = SeriesDraft::checked(CALL);
    last_series.pv = 5000;
    Draft::new(
        vec![SeriesDraft::checked(CALL), SeriesDraft::checked(PUT), last_series],
        vec![
            written(0, 3100, 10),
            held(0, 3250, 4).with_premium(6),
            written(1, 2900, 3).with_barrier(DOWN_AND_OUT, 2500, 9),
            held(2, 4900, 5).with_limiter(5600),
            written(2, 5100, 8).with_barrier(UP_AND_IN, 5500, 0),
        ],
    )
}

/// The row that faults are put into: a written European call of series 0.
pub fn row_to_spoil() -> PositionDraft {
    written(0, 3100, 10)
}
