//! Contracts blocked as collateral (document 02 [9]): how many, in rows of every
//! sort. Choices of pairs, numbers of lines and faults are in the files beside.

use super::rows::{checked_series, held, one_series, within_reach, written, KINDS};
use super::Cases;
use crate::draft::{Draft, PositionDraft, SeriesDraft, CALL, DOWN_AND_OUT, PUT, UP_AND_IN};

pub fn add(cases: &mut Cases) {
    cases.begin("blocked");
    for type_byte in [CALL, PUT] {
        numbers(cases, type_byte);
        bytes_of_the_number(cases, type_byte);
        premiums(cases, type_byte);
        other_factors(cases, type_byte);
    }
    for kind in KINDS {
        the_same_option(cases, kind);
        nearest_strikes(cases, kind);
    }
}

pub fn add_flags_and_series(cases: &mut Cases) {
    cases.begin("blocked");
    flags(cases);
    several_series(cases);
}

/// None, one, all but one and all, of a few contracts and of one.
fn numbers(cases: &mut Cases, type_byte: u8) {
    for (quantity, blocked) in
        [(4, 0), (4, 1), (4, 2), (4, 3), (4, 4), (1, 0), (1, 1), (100_000, 99_999)]
    {
        let rows = vec![
            written(0, 3000, 10),
            held(0, 3000, quantity).with_blocked(blocked).with_premium(3),
            held(0, 3010, 3),
        ];
        let name = format!("type {type_byte}, {blocked} of {quantity}");
        cases.accept(name, one_series(type_byte, rows));
    }
}

/// Each of the three bytes alone, and all of them, of 100,000 contracts.
fn bytes_of_the_number(cases: &mut Cases, type_byte: u8) {
    let most = 100_000;
    for blocked in [1, 255, 256, 257, 65_280, 65_535, 65_536, 65_537, 66_051, 99_999, 100_000] {
        let rows = vec![written(0, 3000, most), held(0, 3000, most).with_blocked(blocked)];
        let name = format!("type {type_byte}, {blocked} of 100,000");
        cases.accept(name, one_series(type_byte, rows));
    }
}

/// Over Q, however many are blocked; the largest ones with all blocked.
fn premiums(cases: &mut Cases, type_byte: u8) {
    let bought = |blocked: u32| held(0, 3000, 7).with_premium(13).with_blocked(blocked);
    for blocked in [0, 1, 3, 6, 7] {
        let name = format!("type {type_byte}, premium of 7 contracts, {blocked} blocked");
        cases.accept(format!("{name}, alone"), one_series(type_byte, vec![bought(blocked)]));
        let rows = vec![written(0, 3000, 5), bought(blocked), held(0, 3000, 9).with_premium(1)];
        cases.accept(format!("{name}, paired"), one_series(type_byte, rows));
    }
    let series = SeriesDraft { m: 1_000, ..SeriesDraft::checked(type_byte) };
    let row = held(0, 3000, 100_000).with_premium(10_000_000).with_blocked(100_000);
    let name = format!("type {type_byte}, 256 largest premiums, all blocked");
    cases.accept(name, Draft::new(vec![series], vec![row; 256]));
}

/// A low price above today's, amounts below a real, and no minimum.
fn other_factors(cases: &mut Cases, type_byte: u8) {
    let beside = if type_byte == CALL { 11 } else { 9 };
    let at_ten = SeriesDraft::at_ten(type_byte);
    for (name, series) in [
        ("small amounts", at_ten),
        ("fb above fa less one", SeriesDraft { fb: 1_199_999, ..at_ten }),
        ("no stress", SeriesDraft { fa: 1_000_000, fb: 1_000_000, f3: 300_000, ..at_ten }),
    ] {
        let rows = vec![
            written(0, 10, 60),
            held(0, beside, 40).with_blocked(39).with_premium(1),
            held(0, 10, 30).with_blocked(29),
            held(0, beside, 9).with_blocked(9),
        ];
        let name = format!("type {type_byte}, {name}");
        cases.accept(name, Draft::new(vec![series], rows));
    }
}

/// Held and written alike in every other byte but the side, with a limiter and
/// without, wholly blocked and in part.
fn the_same_option(cases: &mut Cases, kind: u8) {
    for limited in [false, true] {
        for blocked in [1, 2, 5] {
            let of = |row: PositionDraft| {
                let row = within_reach(row, kind, 60);
                if limited {
                    row.with_limiter(3300)
                } else {
                    row
                }
            };
            let rows = vec![
                of(written(0, 3000, 5)),
                of(held(0, 3000, 5)).with_blocked(blocked),
                of(held(0, 3000, 1)).with_premium(4),
            ];
            let name = format!("kind {kind} limiter {limited}, the same option, {blocked} of 5");
            cases.accept_both(name, rows);
        }
    }
}

/// The nearest strikes are wholly blocked, and the next are taken.
fn nearest_strikes(cases: &mut Cases, kind: u8) {
    let of = |row: PositionDraft| within_reach(row, kind, 25);
    let rows = vec![
        of(written(0, 3000, 9)),
        of(held(0, 3000, 2)).with_blocked(2),
        of(held(0, 3001, 3)).with_blocked(3),
        of(held(0, 3003, 2)).with_blocked(1),
        of(held(0, 3000, 2)),
        of(written(0, 3003, 4)),
        of(held(0, 2990, 9)).with_blocked(4),
        of(written(0, 2985, 1)),
    ];
    cases.accept_both(format!("kind {kind}, the nearest strikes wholly blocked"), rows);
}

/// Flags 1 and 16, and neither European nor opened before the annex.
fn flags(cases: &mut Cases) {
    let knocked_in = |row: PositionDraft| row.with_barrier(UP_AND_IN, 3500, 9).knocked_in();
    let out = |row: PositionDraft| row.with_barrier(DOWN_AND_OUT, 2550, 160);
    let rows = vec![
        knocked_in(written(0, 3000, 5)),
        held(0, 3000, 2).with_blocked(1),
        knocked_in(held(0, 3000, 4)).with_blocked(2),
        held(0, 3000, 3).style(false, false).with_blocked(2).with_premium(5),
        held(0, 3001, 3).style(false, true).with_blocked(2),
    ];
    cases.accept_both("flags 1, 4 and 8", rows);
    for blocked in [0, 1, 4] {
        let rows = vec![
            out(written(0, 3000, 9)),
            out(held(0, 3000, 4)).knocked_out().with_blocked(blocked).with_premium(7),
            out(written(0, 3000, 1)).knocked_out(),
            out(held(0, 3000, 4)).with_blocked(blocked),
        ];
        cases.accept_both(format!("flag 16, {blocked} of 4"), rows);
    }
}

/// The rows of one series blocked, of the other not; the same rows in both.
fn several_series(cases: &mut Cases) {
    for blocked in [[0, 4], [4, 0], [1, 3]] {
        let rows = (0..2u16).flat_map(|series| {
            let of = blocked[series as usize];
            [written(series, 3000, 5), held(series, 3000, 4).with_blocked(of).with_premium(2)]
        });
        let name = format!("two series, {blocked:?} of 4 blocked");
        cases.accept(name, Draft::new(checked_series(), rows.collect()));
    }
    let all = (0..32).map(|number| SeriesDraft { pv: 3000 + number, ..SeriesDraft::checked(CALL) });
    let rows = (0..128u16).map(|number| {
        let (series, quantity) = (number % 32, 1 + u32::from(number) * 7 % 13);
        match number / 32 {
            0 | 2 => written(series, 3000 + u32::from(number) % 5, quantity),
            _ => held(series, 3003, quantity).with_blocked(u32::from(number) % (quantity + 1)),
        }
    });
    cases.accept("32 series, 128 rows", Draft::new(all.collect(), rows.collect()));
}
