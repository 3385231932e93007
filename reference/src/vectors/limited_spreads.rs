//! Limiters inside a spread (document 02 [3]): PBh at PBw and one tick beside
//! it, a limiter on one row alone, and choices among limited rows.

use super::rows::{held, is_up, one_series, written};
use super::Cases;
use crate::draft::{
    PositionDraft, CALL, DOWN_AND_IN, DOWN_AND_OUT, NO_BARRIER, PUT, UP_AND_IN, UP_AND_OUT,
};

pub fn add(cases: &mut Cases) {
    cases.begin("limited spreads");
    for kind in [NO_BARRIER, UP_AND_OUT, DOWN_AND_OUT] {
        beside(cases, kind);
        on_one_row(cases, kind);
    }
    for kind in [UP_AND_OUT, DOWN_AND_OUT] {
        limiter_and_barrier(cases, kind);
        formulas_of_knock_outs(cases, kind);
    }
    for kind in [UP_AND_IN, DOWN_AND_IN] {
        knock_ins(cases, kind);
    }
    flag_1(cases);
    formulas_in_force(cases);
    for (name, rows) in choices().into_iter().chain(ties()) {
        cases.accept_both(name, rows);
    }
    lowest_limiters(cases);
    lowest_limiters_of_knock_outs(cases);
    highest_limiters(cases);
}

/// The row with a barrier of the kind, so many ticks farther than a price
/// within reach.
fn with_kind(row: PositionDraft, kind: u8, farther: i64, rebate: u32) -> PositionDraft {
    let price = if is_up(kind) { 3500 + farther } else { 2500 - farther };
    match kind {
        NO_BARRIER => row,
        _ => row.with_barrier(kind, price as u32, rebate),
    }
}

/// PBh one tick nearer than PBw, at it and one tick farther.
fn beside(cases: &mut Cases, kind: u8) {
    let rows = [
        written(0, 3000, 9).with_limiter(3300),
        held(0, 3020, 1).with_limiter(3299),
        held(0, 3030, 2).with_limiter(3300),
        held(0, 3040, 3).with_limiter(3301),
    ];
    let rows = rows.map(|row| with_kind(row, kind, 0, 60)).to_vec();
    cases.accept_both(format!("kind {kind}, limiters beside each other"), rows);
}

/// A limiter bars against an unlimited written row, however far it stands.
fn on_one_row(cases: &mut Cases, kind: u8) {
    let rows = [
        written(0, 3000, 3),
        held(0, 3000, 2).with_limiter(5000),
        held(0, 3010, 1).with_limiter(3300),
        written(0, 3050, 9).with_limiter(3350),
        held(0, 3045, 2),
    ];
    let rows = rows.map(|row| with_kind(row, kind, 0, 25)).to_vec();
    cases.accept_both(format!("kind {kind}, limiter on one row alone"), rows);
}

/// Neither the order of limiters nor that of barriers is enough by itself.
fn limiter_and_barrier(cases: &mut Cases, kind: u8) {
    let of = |row: PositionDraft, farther: i64| with_kind(row, kind, farther, 25);
    let rows = vec![
        of(written(0, 3000, 9).with_limiter(3300), 0),
        of(held(0, 3010, 1).with_limiter(3300), -1),
        of(held(0, 3020, 1).with_limiter(3299), 1),
        of(held(0, 3030, 1).with_limiter(3299), -1),
        of(held(0, 3040, 1).with_limiter(3301), 1),
        of(held(0, 3050, 1), -1),
        of(held(0, 3060, 1), 1),
    ];
    cases.accept_both(format!("kind {kind}, order of limiters and of barriers"), rows);
}

/// D is not limited by PBw: here it is above PBw - PEw, and the held rebate
/// makes the spread less than the margin.
fn formulas_of_knock_outs(cases: &mut Cases, kind: u8) {
    let rows = vec![
        with_kind(written(0, 3000, 5).with_limiter(3100), kind, 0, 590),
        with_kind(held(0, 3250, 2), kind, 0, 500),
    ];
    cases.accept_both(format!("kind {kind}, held strike beyond PBw"), rows);
}

/// Knock-ins pair only when the same, limiter and all.
fn knock_ins(cases: &mut Cases, kind: u8) {
    let rows = [
        written(0, 3000, 9).with_limiter(3300),
        held(0, 3000, 1).with_limiter(3301),
        held(0, 3000, 1),
        held(0, 3010, 1).with_limiter(3300),
        held(0, 3000, 2).with_limiter(3300),
        held(0, 3000, 1).with_limiter(3299),
    ];
    let rows = rows.map(|row| with_kind(row, kind, 0, 7)).to_vec();
    cases.accept_both(format!("kind {kind}, knock-ins"), rows);
}

/// Flag 1 takes the barrier, and the limiter stays.
fn flag_1(cases: &mut Cases) {
    let up_and_in = |row: PositionDraft| row.with_barrier(UP_AND_IN, 3500, 700);
    let down_and_in = |row: PositionDraft| row.with_barrier(DOWN_AND_IN, 2500, 9);
    let rows = vec![
        up_and_in(written(0, 3000, 9).with_limiter(3300)).knocked_in(),
        held(0, 3000, 1).with_limiter(3300),
        down_and_in(held(0, 3010, 1).with_limiter(3299)).knocked_in(),
        down_and_in(held(0, 3020, 1).with_limiter(3301)).knocked_in(),
        up_and_in(held(0, 3000, 1).with_limiter(3300)),
        written(0, 3100, 2),
        up_and_in(held(0, 3100, 1).with_limiter(3900)).knocked_in(),
    ];
    cases.accept_both("flag 1", rows);
}

/// The spread is not limited by PBw - PEw, and the margin of the written row
/// is MM: just above two of the spreads, and equal to the third.
fn formulas_in_force(cases: &mut Cases) {
    let rows = vec![
        written(0, 3000, 5).with_limiter(3100),
        held(0, 3150, 1),
        held(0, 3149, 1),
        held(0, 3120, 1).with_limiter(3130),
    ];
    cases.accept_both("held strike beyond PBw", rows);
}

fn choices() -> [(&'static str, Vec<PositionDraft>); 3] {
    [
        (
            "the nearest strikes barred",
            vec![
                written(0, 3000, 10).with_limiter(3300),
                held(0, 3001, 1).with_limiter(3200),
                held(0, 2999, 1).with_limiter(3299),
                held(0, 3005, 2).with_limiter(3300),
                held(0, 2993, 2),
                held(0, 3009, 9).with_limiter(3500),
            ],
        ),
        (
            "barred for the nearest written row, taken by another",
            vec![
                written(0, 3000, 4).with_limiter(3400),
                written(0, 3050, 3).with_limiter(3250),
                held(0, 3001, 5).with_limiter(3300),
                held(0, 3100, 9),
            ],
        ),
        (
            "one strike, several limiters",
            vec![
                held(0, 3100, 2).with_limiter(3300),
                written(0, 3100, 3).with_limiter(3300),
                held(0, 3100, 2),
                written(0, 3100, 3),
                held(0, 3100, 4).with_limiter(3400),
                written(0, 3100, 3).with_limiter(3400),
            ],
        ),
    ]
}

fn ties() -> [(&'static str, Vec<PositionDraft>); 2] {
    [
        (
            "a tie, the first held row barred",
            vec![
                written(0, 3100, 5).with_limiter(3300),
                held(0, 3150, 3).with_limiter(3299),
                held(0, 3050, 3).with_limiter(3300),
                held(0, 3150, 3),
            ],
        ),
        (
            "a tie, the first written row barred",
            vec![
                written(0, 3050, 3).with_limiter(3400),
                written(0, 3150, 3).with_limiter(3300),
                held(0, 3100, 4).with_limiter(3350),
            ],
        ),
    ]
}

/// A put's limiter at 0 is a limiter.
fn lowest_limiters(cases: &mut Cases) {
    let limited = |row: PositionDraft, limiter: Option<u32>| match limiter {
        Some(price) => row.with_limiter(price),
        None => row,
    };
    for (of_held, of_written) in [
        (Some(0), None),
        (None, Some(0)),
        (Some(0), Some(0)),
        (Some(0), Some(1)),
        (Some(1), Some(0)),
    ] {
        let mut rows = vec![limited(written(0, 3000, 4), of_written)];
        rows.extend([3000, 3010, 2990].map(|strike| limited(held(0, strike, 1), of_held)));
        let name = format!("limiters of puts, held {of_held:?}, written {of_written:?}");
        cases.accept(name, one_series(PUT, rows));
    }
}

fn lowest_limiters_of_knock_outs(cases: &mut Cases) {
    for kind in [UP_AND_OUT, DOWN_AND_OUT] {
        let rows = [
            written(0, 3000, 3),
            held(0, 3000, 2).with_limiter(0),
            written(0, 3020, 3).with_limiter(0),
            held(0, 3020, 1).with_limiter(1),
            held(0, 3050, 2),
        ];
        let rows = rows.map(|row| with_kind(row, kind, 0, 25)).to_vec();
        cases.accept(format!("kind {kind}, limiters of puts at 0"), one_series(PUT, rows));
    }
}

fn highest_limiters(cases: &mut Cases) {
    let rows = vec![
        written(0, 3000, 5).with_limiter(10_000_000),
        written(0, 3100, 1),
        held(0, 3000, 2).with_limiter(9_999_999),
        held(0, 3010, 2).with_limiter(10_000_000),
    ];
    cases.accept("the highest limiters", one_series(CALL, rows));
}
