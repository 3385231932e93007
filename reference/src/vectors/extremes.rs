//! Extreme quantities and prices.

use super::rows::{held, written};
use super::Cases;
use crate::draft::{
    Draft, PositionDraft, SeriesDraft, CALL, DOWN_AND_IN, DOWN_AND_OUT, HELD, PUT, UP_AND_IN,
    UP_AND_OUT, WRITTEN,
};

const WIDEST: SeriesDraft = SeriesDraft {
    pv: 10_000_000,
    fa: 10_000_000,
    fb: 0,
    f3: 1_000_000,
    m: 1_000,
    type_byte: CALL,
    spare: [0; 3],
};
const LEAST: SeriesDraft =
    SeriesDraft { pv: 1, fa: 1_000_000, fb: 0, f3: 0, m: 1, type_byte: CALL, spare: [0; 3] };

pub fn add(cases: &mut Cases) {
    cases.begin("extremes");
    for type_byte in [CALL, PUT] {
        series_at_their_ends(cases, type_byte);
        largest_amounts(cases, type_byte);
        barriers_at_their_ends(cases, type_byte);
    }
    low_price_above_todays(cases);
}

fn series_at_their_ends(cases: &mut Cases, type_byte: u8) {
    for (name, series) in [
        ("widest", WIDEST),
        ("least", LEAST),
        ("highest fb", SeriesDraft { fb: 10_000_000, ..WIDEST }),
        ("no stress", SeriesDraft { fb: 1_000_000, ..LEAST }),
        ("least, widest factors", SeriesDraft { fa: 10_000_000, m: 1_000, ..LEAST }),
    ] {
        for strike in [1, 5_000_000, 10_000_000] {
            let rows = vec![
                written(0, strike, 100_000),
                written(0, strike, 1),
                held(0, 10_000_000, 100_000).with_premium(10_000_000),
                held(0, 1, 99_999).with_premium(1),
            ];
            let name = format!("{name}, type {type_byte}, strike {strike}");
            cases.accept(name, Draft::new(vec![SeriesDraft { type_byte, ..series }], rows));
        }
    }
}

/// 256 rows of the largest amounts.
fn largest_amounts(cases: &mut Cases, type_byte: u8) {
    let strike = if type_byte == CALL { 1 } else { 10_000_000 };
    for (name, row) in [
        ("256 largest written rows", written(0, strike, 100_000)),
        ("256 largest premiums", held(0, strike, 100_000).with_premium(10_000_000)),
    ] {
        let draft = Draft::new(vec![SeriesDraft { type_byte, ..WIDEST }], vec![row; 256]);
        cases.accept(format!("{name}, type {type_byte}"), draft);
    }
}

/// Barriers and rebates at their ends.
fn barriers_at_their_ends(cases: &mut Cases, type_byte: u8) {
    let middle = SeriesDraft { pv: 5_000_000, fa: 2_000_000, fb: 1, type_byte, ..WIDEST };
    let mut rows = Vec::new();
    for side in [WRITTEN, HELD] {
        for (kind, price) in [
            (UP_AND_IN, 10_000_000),
            (UP_AND_IN, 5_000_001),
            (DOWN_AND_IN, 1),
            (DOWN_AND_IN, 4_999_999),
            (UP_AND_OUT, 10_000_000),
            (UP_AND_OUT, 5_000_001),
            (DOWN_AND_OUT, 1),
            (DOWN_AND_OUT, 4_999_999),
        ] {
            for rebate in [0, 10_000_000] {
                let row = PositionDraft::plain(0, side, 5_000_000, 100_000);
                rows.push(row.with_barrier(kind, price, rebate));
            }
        }
    }
    let draft = Draft::new(vec![middle], rows);
    cases.accept(format!("barriers at their ends, type {type_byte}"), draft);
}

fn low_price_above_todays(cases: &mut Cases) {
    for (fa, fb) in [(1_200_000, 1_200_000), (1_500_000, 1_100_000), (10_000_000, 9_999_999)] {
        for type_byte in [CALL, PUT] {
            let series = SeriesDraft { fa, fb, ..SeriesDraft::checked(type_byte) };
            let rows = vec![
                written(0, 3100, 3),
                written(0, 3500, 3).with_barrier(UP_AND_IN, 3200, 70),
                written(0, 3500, 3).with_barrier(DOWN_AND_IN, 2900, 700),
                written(0, 3500, 3).with_barrier(UP_AND_OUT, 3200, 70),
                written(0, 3500, 3).with_barrier(DOWN_AND_OUT, 2900, 70),
                held(0, 3400, 5),
                held(0, 3600, 1).with_barrier(UP_AND_OUT, 3200, 10),
                held(0, 3400, 1).with_barrier(DOWN_AND_OUT, 2900, 10),
            ];
            let name = format!("fa {fa} fb {fb} type {type_byte}");
            cases.accept(name, Draft::new(vec![series], rows));
        }
    }
}
