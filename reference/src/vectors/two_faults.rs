//! Two faults at once.

use super::rows::{row_to_spoil, sound};
use super::Cases;
use crate::draft::{Draft, PositionDraft, DOWN_AND_IN, DOWN_AND_OUT, UP_AND_IN, UP_AND_OUT};

pub fn add(cases: &mut Cases) {
    cases.begin("two faults");
    in_two_rows(cases);
    in_one_row(cases);
    in_the_trailer(cases);
}

/// Of the refusals of a file; 3 is given for nothing.
const NUMBERS: [i64; 10] = [1, 2, 4, 5, 6, 7, 8, 9, 10, 11];

/// One fault in the first row of its table, the other in the last row of its
/// own, and the other way round. Faults of the trailer have no row, so that one
/// order says it all; a file that is too long is made once.
fn in_two_rows(cases: &mut Cases) {
    for first in NUMBERS {
        for &second in &NUMBERS[1..] {
            let both_in_trailer = first <= 4 && second <= 4;
            if both_in_trailer && first >= second {
                continue;
            }
            let mut draft = sound();
            let a = put_fault(&mut draft, first, false);
            let b = put_fault(&mut draft, second, true);
            let (_, row, number) = a.min(b);
            let name = format!("{first} in the first row and {second} in the last row");
            cases.refuse(name, draft.bytes(), number, row);
        }
    }
}

/// One fault for each number, put into the given row of its own table. Gives
/// the place of the fault in the order of checks: table, row, number.
pub fn put_fault(draft: &mut Draft, number: i64, last: bool) -> (usize, usize, i64) {
    let series_row = if last { 2 } else { 0 };
    let position_row = if last { 4 } else { 0 };
    match number {
        1 => draft.cover = vec![1; 65_537 - sound().bytes().len()],
        2 => draft.last_four[3] = 1,
        4 => draft.stated_distance = Some(13),
        5 => draft.series[series_row].pv = 0,
        6 => draft.series[series_row].type_byte = 2,
        _ => draft.positions[position_row] = faulty_row(number),
    }
    match number {
        1..=4 => (0, 0, number),
        5 | 6 => (1, series_row, number),
        _ => (2, position_row, number),
    }
}

fn faulty_row(number: i64) -> PositionDraft {
    let row = row_to_spoil();
    match number {
        7 => PositionDraft { side: 2, ..row },
        8 => PositionDraft { quantity: 0, ..row },
        9 => PositionDraft { limiter: 1, ..row },
        10 => PositionDraft { barrier: 1, ..row },
        11 => row.with_barrier(UP_AND_IN, 3000, 0),
        _ => panic!("no such fault"),
    }
}

/// What is wrong, the refusal's number, and the change that makes it so.
type Faults = (&'static str, i64, fn(&mut PositionDraft));

#[rustfmt::skip]
const IN_ONE_ROW: [Faults; 17] = [
    ("7 and 8", 7, |r| { r.blocked = 1 << 16; r.quantity = 0 }),
    ("7 and 9", 7, |r| { r.flags |= 16; r.limiter = 1 }),
    ("7 and 10", 7, |r| { r.side = 2; r.rebate = 1 }),
    ("7 and 11", 7, |r| { *r = r.with_barrier(UP_AND_OUT, 3000, 0); r.blocked = 1 }),
    ("7 by flag 1 and 11", 7, |r| *r = r.with_barrier(DOWN_AND_OUT, 3001, 0).knocked_in()),
    ("8 and 9", 8, |r| { r.strike = 0; r.limiter = 1 }),
    ("8 and 9, PE beyond, PB below it", 8, |r| { r.strike = 10_000_001; *r = r.with_limiter(5) }),
    ("8 and 10", 8, |r| { r.premium = 1; r.barrier = 1 }),
    ("8 and 10 by one rebate", 8, |r| r.rebate = 10_000_001),
    ("8 and 11", 8, |r| *r = r.with_barrier(UP_AND_IN, 3000, 10_000_001)),
    ("9 and 10", 9, |r| { r.limiter = 1; r.barrier = 1 }),
    ("9 and 11", 9, |r| *r = r.with_barrier(DOWN_AND_IN, 3000, 0).with_limiter(3100)),
    ("10 and 11, price 0 upwards", 10, |r| *r = r.with_barrier(UP_AND_IN, 0, 0)),
    ("10 and 11, price beyond downwards", 10, |r| *r = r.with_barrier(DOWN_AND_OUT, 10_000_001, 0)),
    ("7 to 11", 7, |r| {
        *r = r.with_barrier(UP_AND_IN, 0, 10_000_001).with_limiter(1);
        r.side = 9;
        r.quantity = 0;
    }),
    ("8 to 11", 8, |r| {
        *r = r.with_barrier(UP_AND_IN, 0, 10_000_001).with_limiter(1);
        r.quantity = 0;
    }),
    ("9 to 11", 9, |r| *r = r.with_barrier(UP_AND_IN, 0, 0).with_limiter(1)),
];

fn in_one_row(cases: &mut Cases) {
    let mut draft = sound();
    draft.series[2].type_byte = 2;
    draft.series[2].f3 = u32::MAX;
    cases.refuse("5 and 6 in series row 2", draft.bytes(), 5, 2);
    for (what, number, spoil) in IN_ONE_ROW {
        for row in [0, 4] {
            let mut draft = sound();
            draft.positions[row] = row_to_spoil();
            spoil(&mut draft.positions[row]);
            let name = format!("{what} in position row {row}");
            cases.refuse(name, draft.bytes(), number, row);
        }
    }
}

fn in_the_trailer(cases: &mut Cases) {
    let too_many = Draft { stated_p: Some(257), stated_distance: Some(0), ..sound() };
    cases.refuse("p 257 and distance 0", too_many.bytes(), 2, 0);
    cases.refuse("11 bytes of 255", vec![255; 11], 1, 0);
}
