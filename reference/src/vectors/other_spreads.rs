//! Pairs that are barred, same options, and margins that just do or do not
//! fall. More of limiters stands in `limited_spreads`.

use super::rows::{held, series_with_remainder, written};
use super::Cases;
use crate::draft::{
    Draft, PositionDraft, SeriesDraft, CALL, DOWN_AND_IN, DOWN_AND_OUT, PUT, UP_AND_IN, UP_AND_OUT,
};
use crate::position_row::{FLAG_BEFORE_ANNEX, FLAG_EUROPEAN};

pub fn add(cases: &mut Cases) {
    cases.begin("other spreads");
    for type_byte in [CALL, PUT] {
        limiters(cases, type_byte);
        barriers(cases, type_byte);
        flag_1(cases, type_byte);
        flags_4_and_8(cases, type_byte);
        strikes_about_the_stressed_price(cases, type_byte);
        equal_margins(cases, type_byte);
        a_fine_unit_beside(cases, type_byte);
        small_margins(cases, type_byte);
    }
}

fn one(cases: &mut Cases, name: &str, series: SeriesDraft, rows: Vec<PositionDraft>) {
    cases.accept(name, Draft::new(vec![series], rows));
}

fn limiters(cases: &mut Cases, type_byte: u8) {
    let series = SeriesDraft::checked(type_byte);
    let limiter = if type_byte == CALL { 3300 } else { 2700 };
    one(
        cases,
        "limiter on one row only",
        series,
        vec![written(0, 3000, 2), held(0, 3000, 2).with_limiter(limiter), held(0, 3010, 1)],
    );
    one(
        cases,
        "limiter on both, same and other",
        series,
        vec![
            written(0, 3000, 5).with_limiter(limiter),
            held(0, 3000, 2).with_limiter(limiter + 1),
            held(0, 3000, 2).with_limiter(limiter),
            held(0, 2999, 2).with_limiter(limiter),
        ],
    );
}

fn barriers(cases: &mut Cases, type_byte: u8) {
    let series = SeriesDraft::checked(type_byte);
    one(
        cases,
        "up-and-out against down-and-out and none",
        series,
        vec![
            written(0, 3000, 5).with_barrier(UP_AND_OUT, 3500, 0),
            held(0, 3000, 2).with_barrier(DOWN_AND_OUT, 2500, 0),
            held(0, 3000, 2),
            held(0, 3000, 2).with_barrier(UP_AND_IN, 3500, 0),
            held(0, 3000, 2).with_barrier(DOWN_AND_IN, 2500, 0),
        ],
    );
    one(
        cases,
        "knock-ins pair only when the same",
        series,
        vec![
            written(0, 3000, 9).with_barrier(UP_AND_IN, 3500, 7),
            held(0, 3000, 2).with_barrier(UP_AND_IN, 3500, 8),
            held(0, 3000, 2).with_barrier(UP_AND_IN, 3501, 7),
            held(0, 3001, 2).with_barrier(UP_AND_IN, 3500, 7),
            held(0, 3000, 2).with_barrier(UP_AND_IN, 3500, 7),
            held(0, 3000, 2).with_barrier(DOWN_AND_IN, 2500, 7),
        ],
    );
}

fn flag_1(cases: &mut Cases, type_byte: u8) {
    let rows = vec![
        written(0, 3000, 9).with_barrier(UP_AND_IN, 3500, 700).knocked_in(),
        held(0, 3000, 2),
        held(0, 3020, 2).with_barrier(DOWN_AND_IN, 2500, 9).knocked_in(),
        held(0, 3000, 2).with_barrier(UP_AND_IN, 3500, 700),
        written(0, 2980, 3),
    ];
    one(cases, "flag 1 on one row, the other plain", SeriesDraft::checked(type_byte), rows);
}

fn flags_4_and_8(cases: &mut Cases, type_byte: u8) {
    for (of_written, of_held) in [
        (FLAG_EUROPEAN, FLAG_EUROPEAN),
        (FLAG_EUROPEAN, FLAG_BEFORE_ANNEX),
        (FLAG_BEFORE_ANNEX, FLAG_EUROPEAN),
        (FLAG_BEFORE_ANNEX, FLAG_BEFORE_ANNEX),
        (FLAG_EUROPEAN | FLAG_BEFORE_ANNEX, FLAG_BEFORE_ANNEX),
        (FLAG_EUROPEAN, 0),
        (0, FLAG_BEFORE_ANNEX),
        (0, 0),
    ] {
        let w = PositionDraft { flags: of_written, ..written(0, 3000, 2) };
        let h = PositionDraft { flags: of_held, ..held(0, 3010, 2) };
        let name = format!("flags {of_written} and {of_held}");
        one(cases, &name, SeriesDraft::checked(type_byte), vec![w, h]);
    }
}

/// The spread just below, at and above the margin of the written row.
fn strikes_about_the_stressed_price(cases: &mut Cases, type_byte: u8) {
    let strikes = if type_byte == CALL { [3599, 3600, 3601] } else { [2401, 2400, 2399] };
    for strike in strikes {
        let rows = vec![written(0, 3000, 2), held(0, strike, 2)];
        let series = SeriesDraft::checked(type_byte);
        one(cases, "held strike about the stressed price", series, rows);
    }
}

/// Strikes out of the money, the second farther.
fn far_strikes(type_byte: u8) -> [u32; 2] {
    if type_byte == CALL {
        [3590, 3595]
    } else {
        [2410, 2405]
    }
}

/// Knock-outs whose margins are all MM: equal, no pair.
fn equal_margins(cases: &mut Cases, type_byte: u8) {
    let [far, farther] = far_strikes(type_byte);
    let rows = vec![
        written(0, far, 2).with_barrier(DOWN_AND_OUT, 2300, 0),
        held(0, farther, 2).with_barrier(DOWN_AND_OUT, 2300, 0),
        held(0, far, 1).with_barrier(DOWN_AND_OUT, 2299, 0),
    ];
    one(cases, "margin and spread both MM", SeriesDraft::checked(type_byte), rows);
}

/// The margin falls by one fine unit, or rises by one.
fn a_fine_unit_beside(cases: &mut Cases, type_byte: u8) {
    for remainder in [1, 999_999] {
        let (series, edge) = series_with_remainder(type_byte, type_byte == CALL, remainder);
        let strike = ((edge + 1) / 1_000_000) as u32;
        let rows = vec![written(0, 3000, 2), held(0, strike, 2)];
        one(cases, "held strike one fine unit beside the stressed price", series, rows);
    }
}

fn small_margins(cases: &mut Cases, type_byte: u8) {
    // Rebate 200, spread MM of 199.5: rounded to centavos or reais they are
    // equal, but units are compared.
    let [far, farther] = far_strikes(type_byte);
    let half = SeriesDraft { f3: 66_500, m: 1, ..SeriesDraft::checked(type_byte) };
    let rows = vec![
        written(0, far, 1).with_barrier(DOWN_AND_OUT, 2500, 200),
        held(0, farther, 1).with_barrier(DOWN_AND_OUT, 2500, 200),
    ];
    one(cases, "margins less than a centavo apart", half, rows);
    // Without a minimum a written row may have margin 0, and then even the
    // same option makes no pair.
    let free = SeriesDraft { f3: 0, ..SeriesDraft::checked(type_byte) };
    let worthless = if type_byte == CALL { 3600 } else { 2400 };
    one(cases, "margin 0", free, vec![written(0, worthless, 2), held(0, worthless, 2)]);
}
