//! Knock-outs that were touched on an earlier day (document 02 [5]): flag 16.

use super::row_faults::{in_first_and_last_row, Fault};
use super::rows::{held, one_series, row_to_spoil, sound, within_reach, written};
use super::Cases;
use crate::draft::{
    Draft, PositionDraft, SeriesDraft, CALL, DOWN_AND_IN, DOWN_AND_OUT, HELD, NO_BARRIER, PUT,
    UP_AND_IN, UP_AND_OUT,
};
use crate::position_row::{FLAG_KNOCKED_IN, FLAG_KNOCKED_OUT};

const KNOCK_OUTS: [u8; 2] = [UP_AND_OUT, DOWN_AND_OUT];

pub fn add(cases: &mut Cases) {
    cases.begin("knocked out");
    for type_byte in [CALL, PUT] {
        for kind in KNOCK_OUTS {
            rebates(cases, type_byte, kind);
            other_flags(cases, type_byte, kind);
            same_options(cases, type_byte, kind);
            one_row_knocked_out(cases, type_byte, kind);
            nearest_strikes(cases, type_byte, kind);
            against_no_barrier(cases, type_byte, kind);
        }
        minimum_margins(cases, type_byte);
    }
    sides_of_pv_at_their_ends(cases);
    most_rows(cases);
}

/// REB below, at and above MM 150, the barrier on either side of PV.
fn rebates(cases: &mut Cases, type_byte: u8, kind: u8) {
    for price in [1, 2500, 2999, 3000, 3001, 3500, 10_000_000] {
        let of_rebate =
            |rebate: u32| written(0, 3100, 3).with_barrier(kind, price, rebate).knocked_out();
        let rows = [0, 1, 149, 150, 151, 9_000, 10_000_000].map(of_rebate).to_vec();
        let name = format!("type {type_byte} kind {kind} price {price}, rebates about MM");
        cases.accept(name, one_series(type_byte, rows));
    }
}

/// European, opened before the annex, with a limiter.
fn other_flags(cases: &mut Cases, type_byte: u8, kind: u8) {
    let limiter = if type_byte == CALL { 3400 } else { 2600 };
    let mut rows = Vec::new();
    for style in [(false, false), (true, false), (false, true), (true, true)] {
        for plain in [written(0, 3000, 2), held(0, 3000, 3).with_premium(4)] {
            let row = plain.with_barrier(kind, 3000, 70).style(style.0, style.1).knocked_out();
            rows.extend([row, row.with_limiter(limiter)]);
        }
    }
    let name = format!("type {type_byte} kind {kind}, flags 2, 4 and 8 beside");
    cases.accept(name, one_series(type_byte, rows));
}

/// The same option held and written, with flag 16 and without: the two without
/// it pair, and no other two.
fn same_options(cases: &mut Cases, type_byte: u8, kind: u8) {
    let of = |row: PositionDraft| within_reach(row, kind, 160);
    let rows = vec![
        of(written(0, 3000, 9)).knocked_out(),
        of(held(0, 3000, 4)).knocked_out().with_premium(7),
        of(held(0, 3000, 3)).with_premium(5),
        of(written(0, 3000, 8)),
        of(held(0, 3000, 2)).knocked_out(),
    ];
    let name = format!("type {type_byte} kind {kind}, the same option with flag 16 and without");
    cases.accept(name, one_series(type_byte, rows));
}

/// Flag 16 on the written row, on the held rows, and on all of them; strikes
/// and rebates that would pair without it.
fn one_row_knocked_out(cases: &mut Cases, type_byte: u8, kind: u8) {
    for (name, written_out, held_out) in
        [("written", true, false), ("held", false, true), ("every", true, true)]
    {
        let mark = |row: PositionDraft, out: bool| if out { row.knocked_out() } else { row };
        let mut rows = vec![mark(within_reach(written(0, 3000, 9), kind, 500), written_out)];
        for (strike, rebate) in [(3000, 500), (2990, 500), (3010, 400), (3000, 0)] {
            let row = within_reach(held(0, strike, 2), kind, rebate).with_premium(1);
            rows.push(mark(row, held_out));
        }
        let name = format!("type {type_byte} kind {kind}, flag 16 on {name} row");
        cases.accept(name, one_series(type_byte, rows));
    }
}

/// The nearest strikes are knocked out, and the next are taken.
fn nearest_strikes(cases: &mut Cases, type_byte: u8, kind: u8) {
    let of = |row: PositionDraft| within_reach(row, kind, 25);
    let rows = vec![
        of(written(0, 3000, 5)),
        of(held(0, 3000, 2)).knocked_out(),
        of(held(0, 3001, 2)).knocked_out(),
        of(held(0, 3003, 2)),
        of(written(0, 3003, 4)).knocked_out(),
        of(held(0, 2990, 9)),
        of(written(0, 2985, 1)),
    ];
    let name = format!("type {type_byte} kind {kind}, the nearest strikes knocked out");
    cases.accept(name, one_series(type_byte, rows));
}

/// Flag 16 does not make a row one without barrier, as flag 1 does.
fn against_no_barrier(cases: &mut Cases, type_byte: u8, kind: u8) {
    let knocked_in = |row: PositionDraft| row.with_barrier(DOWN_AND_IN, 2500, 9).knocked_in();
    let rows = vec![
        within_reach(written(0, 3000, 5), kind, 300).knocked_out(),
        held(0, 3000, 2),
        knocked_in(held(0, 2990, 2)),
        written(0, 3050, 1),
        knocked_in(written(0, 2950, 1)),
        within_reach(held(0, 3050, 2), kind, 300).knocked_out(),
        within_reach(held(0, 2950, 2), kind, 0).knocked_out(),
    ];
    let name = format!("type {type_byte} kind {kind}, beside rows without barrier");
    cases.accept(name, one_series(type_byte, rows));
}

/// MM is in no unit margin of a row with flag 16, however high it is.
fn minimum_margins(cases: &mut Cases, type_byte: u8) {
    for (f3, fb) in [(0, 800_000), (1, 0), (1_000_000, 800_000), (50_000, 1_200_000)] {
        let series = SeriesDraft { f3, fb, ..SeriesDraft::checked(type_byte) };
        let mut rows = Vec::new();
        for kind in KNOCK_OUTS {
            for rebate in [0, 40, 2999, 3000, 3001] {
                let row = within_reach(written(0, 3100, 7), kind, rebate);
                rows.extend([row.knocked_out(), row]);
            }
        }
        let name = format!("type {type_byte} f3 {f3} fb {fb}, with flag 16 and without");
        cases.accept(name, Draft::new(vec![series], rows));
    }
}

/// Also where no price is on the right side.
fn sides_of_pv_at_their_ends(cases: &mut Cases) {
    for type_byte in [CALL, PUT] {
        for (pv, kind, price) in [
            (10_000_000, UP_AND_OUT, 10_000_000),
            (10_000_000, UP_AND_OUT, 1),
            (1, DOWN_AND_OUT, 1),
            (1, DOWN_AND_OUT, 10_000_000),
        ] {
            let series = SeriesDraft { pv, ..SeriesDraft::checked(type_byte) };
            let rows = vec![
                written(0, pv, 2).with_barrier(kind, price, 500).knocked_out(),
                held(0, pv, 1).with_barrier(kind, price, 500).knocked_out().with_premium(3),
                held(0, pv, 1),
            ];
            let name = format!("PV {pv} type {type_byte} kind {kind} price {price}");
            cases.accept(name, Draft::new(vec![series], rows));
        }
    }
}

/// 256 rows of the largest rebate, and rows of both sides with every other one
/// knocked out.
fn most_rows(cases: &mut Cases) {
    let series = SeriesDraft { m: 1_000, f3: 1_000_000, ..SeriesDraft::checked(CALL) };
    let row = within_reach(written(0, 3100, 100_000), UP_AND_OUT, 10_000_000).knocked_out();
    cases.accept("256 largest rebates", Draft::new(vec![series], vec![row; 256]));
    let rows = (0..64u32).map(|number| {
        let plain = PositionDraft::plain(0, (number % 2) as u8, 3000 + number * 7 % 40, 3);
        let row = within_reach(plain, KNOCK_OUTS[(number / 2 % 2) as usize], number % 5 * 50);
        if number % 3 == 0 {
            row.knocked_out()
        } else {
            row
        }
    });
    cases.accept("64 rows, every third knocked out", one_series(PUT, rows.collect()));
}

fn out(row: &PositionDraft, kind: u8, price: u32, rebate: u32) -> PositionDraft {
    row.with_barrier(kind, price, rebate).knocked_out()
}

#[rustfmt::skip]
const FAULTS: [Fault; 29] = [
    ("flag 16 with kind 1", 7, |r| *r = out(r, UP_AND_IN, 3500, 0)),
    ("flag 16 with kind 2", 7, |r| *r = out(r, DOWN_AND_IN, 2500, 0)),
    ("flag 16 with kind 0, held", 7, |r| { r.side = HELD; *r = r.knocked_out() }),
    ("flag 16 with kind 1, held", 7, |r| { r.side = HELD; *r = out(r, UP_AND_IN, 3500, 0) }),
    ("flag 16 with kind 5", 7, |r| *r = out(r, 5, 3500, 0)),
    ("flag 16 with kind 255", 7, |r| *r = out(r, 255, 3500, 0)),
    ("flags 16 and 1 with kind 0", 7, |r| *r = out(r, NO_BARRIER, 0, 0).knocked_in()),
    ("flags 16 and 1 with kind 1", 7, |r| *r = out(r, UP_AND_IN, 3500, 0).knocked_in()),
    ("flags 16 and 1 with kind 2", 7, |r| *r = out(r, DOWN_AND_IN, 2500, 0).knocked_in()),
    ("flags 16 and 1 with kind 3", 7, |r| *r = out(r, UP_AND_OUT, 3500, 0).knocked_in()),
    ("flags 16 and 1 with kind 4", 7, |r| *r = out(r, DOWN_AND_OUT, 2500, 0).knocked_in()),
    ("flags 1 alone with kind 3", 7, |r| { *r = out(r, UP_AND_OUT, 3500, 0); r.flags = FLAG_KNOCKED_IN }),
    ("flags 16 and 32 with kind 3", 7, |r| { *r = out(r, UP_AND_OUT, 3500, 0); r.flags |= 32 }),
    ("flags 16 and 64 with kind 4", 7, |r| { *r = out(r, DOWN_AND_OUT, 2500, 0); r.flags |= 64 }),
    ("flags 16 and 128 with kind 3", 7, |r| { *r = out(r, UP_AND_OUT, 3500, 0); r.flags |= 128 }),
    ("flag 32 with kind 3", 7, |r| *r = PositionDraft { flags: 32, ..r.with_barrier(UP_AND_OUT, 3500, 0) }),
    ("flag 64 with kind 3", 7, |r| *r = PositionDraft { flags: 64, ..r.with_barrier(UP_AND_OUT, 3500, 0) }),
    ("flag 128 with kind 4", 7, |r| *r = PositionDraft { flags: 128, ..r.with_barrier(DOWN_AND_OUT, 2500, 0) }),
    ("all flags with kind 4", 7, |r| *r = PositionDraft { flags: 255, ..r.with_barrier(DOWN_AND_OUT, 2500, 0) }),
    ("flag 16 with kind 2 above PV", 7, |r| *r = out(r, DOWN_AND_IN, 3500, 0)),
    ("knocked out, Q 0", 8, |r| { *r = out(r, UP_AND_OUT, 3500, 0); r.quantity = 0 }),
    ("knocked out, REB 10,000,001", 8, |r| *r = out(r, DOWN_AND_OUT, 3500, 10_000_001)),
    ("knocked out, premium on a written row", 8, |r| *r = out(r, UP_AND_OUT, 2500, 0).with_premium(1)),
    ("knocked out, PB without limiter", 9, |r| { *r = out(r, UP_AND_OUT, 3500, 0); r.limiter = 3400 }),
    ("knocked out, call PB = PE", 9, |r| *r = out(r, DOWN_AND_OUT, 0, 0).with_limiter(3100)),
    ("knocked out, kind 3 price 0", 10, |r| *r = out(r, UP_AND_OUT, 0, 0)),
    ("knocked out, kind 4 price 0", 10, |r| *r = out(r, DOWN_AND_OUT, 0, 0)),
    ("knocked out, kind 3 price 10,000,001", 10, |r| *r = out(r, UP_AND_OUT, 10_000_001, 0)),
    ("knocked out, kind 4 price highest", 10, |r| *r = out(r, DOWN_AND_OUT, u32::MAX, 0)),
];

/// Each in the first row and in the last.
pub fn add_faults(cases: &mut Cases) {
    cases.begin("knocked out, faults");
    for fault in FAULTS {
        in_first_and_last_row(cases, fault);
    }
    side_of_pv_of_the_next_row(cases);
}

/// Flag 16 frees its own row alone.
fn side_of_pv_of_the_next_row(cases: &mut Cases) {
    for (kind, price) in [(UP_AND_OUT, 3000), (DOWN_AND_OUT, 3001), (UP_AND_IN, 2999)] {
        let mut draft = sound();
        draft.positions[0] = out(&row_to_spoil(), UP_AND_OUT, 2000, 5);
        draft.positions[1] = row_to_spoil().with_barrier(kind, price, 5);
        cases.refuse(format!("kind {kind} after a row knocked out"), draft.bytes(), 11, 1);
        draft.positions.swap(0, 1);
        cases.refuse(format!("kind {kind} before a row knocked out"), draft.bytes(), 11, 0);
    }
    // The flag that frees a knock-in is not the one that frees a knock-out.
    let knock_in = PositionDraft { flags: FLAG_KNOCKED_OUT, ..row_to_spoil() };
    let mut draft = sound();
    draft.positions[4] = knock_in.with_barrier(UP_AND_IN, 3000, 5);
    cases.refuse("kind 1 at PV with flag 16", draft.bytes(), 7, 4);
}
