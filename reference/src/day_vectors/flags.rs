//! Rows that have flags already.

use super::rows::{barred, day, marked, KNOCK_INS_AND_OUTS};
use super::Cases;
use crate::draft::{Draft, PositionDraft, DOWN_AND_IN, DOWN_AND_OUT, UP_AND_IN, UP_AND_OUT};
use crate::vectors::rows::{checked_series, held, written};

pub fn add(cases: &mut Cases) {
    cases.begin("flags");
    for kind in KNOCK_INS_AND_OUTS {
        all_flags(cases, kind);
    }
    on_the_other_side_of_pv(cases);
}

/// Flags 2, 4 and 8 in every combination, with flag 1 or 16 and without.
fn rows_of_all_flags(series: u16, kind: u8) -> Vec<PositionDraft> {
    let limiter = if series == 0 { 3900 } else { 2100 };
    let mut rows = Vec::new();
    for style in [(false, false), (true, false), (false, true), (true, true)] {
        let plain = barred(written(series, 3000, 2).style(style.0, style.1), kind, 80);
        for row in [plain, plain.with_limiter(limiter)] {
            rows.extend([row, marked(row)]);
        }
    }
    rows
}

/// Series 0 has calls, series 1 puts.
fn all_flags(cases: &mut Cases, kind: u8) {
    for series in [0, 1] {
        let draft = Draft::new(checked_series(), rows_of_all_flags(series, kind));
        let all: Vec<usize> = (0..draft.positions.len()).collect();
        let series = u64::from(series);
        let name = |what: &str| format!("series {series} kind {kind}, {what}");
        cases.apply(name("touched"), &draft, day(series, 3400, 2600, 3050), &all);
        cases.apply(name("not touched"), &draft, day(series, 3399, 2601, 3050), &[]);
        cases.apply(name("the other series"), &draft, day(1 - series, 3400, 2600, 3050), &[]);
    }
}

/// Rows with flag 1 or 16 whose barrier the price has left behind.
fn on_the_other_side_of_pv(cases: &mut Cases) {
    let rows = vec![
        written(0, 3000, 2).with_barrier(UP_AND_IN, 2900, 5).knocked_in(),
        held(0, 3000, 2).with_barrier(DOWN_AND_IN, 3100, 5).knocked_in(),
        written(0, 3000, 2).with_barrier(UP_AND_OUT, 2900, 5).knocked_out(),
        held(0, 3000, 2).with_barrier(DOWN_AND_OUT, 3100, 5).knocked_out(),
        written(0, 3000, 2).with_barrier(UP_AND_OUT, 3000, 0).knocked_out(),
        written(0, 3000, 2).with_barrier(UP_AND_OUT, 3001, 0),
        held(0, 3000, 2).with_barrier(DOWN_AND_OUT, 2999, 0),
    ];
    let draft = Draft::new(checked_series(), rows);
    for (name, day, rows) in [
        ("a day between", day(0, 3000, 3000, 3000), vec![]),
        ("a day down to the barriers", day(0, 3000, 2900, 2950), vec![2, 6]),
        ("a day below all barriers", day(0, 2000, 1900, 1950), vec![1, 3, 6]),
        ("a day above all barriers", day(0, 4000, 3900, 3950), vec![0, 2, 4, 5]),
        ("a day of the other series", day(1, 4000, 1000, 3950), vec![]),
    ] {
        cases.apply(name, &draft, day, &rows);
    }
}
