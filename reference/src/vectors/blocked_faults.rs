//! Faults of the number blocked (document 02 [9]): refusals 7 and 8, and faults
//! beside them.

use super::row_faults::{in_first_and_last_row, Fault};
use super::rows::{held, row_to_spoil, sound};
use super::Cases;
use crate::draft::{Draft, PositionDraft, SeriesDraft, CALL, HELD, UP_AND_IN, UP_AND_OUT};

/// Of a row of 10 contracts: one that is held, and one that is written.
fn bought(row: &mut PositionDraft, blocked: u32) {
    row.side = HELD;
    row.blocked = blocked;
}

#[rustfmt::skip]
const FAULTS: [Fault; 39] = [
    ("11 of 10 blocked", 8, |r| bought(r, 11)),
    ("255 of 10 blocked", 8, |r| bought(r, 255)),
    ("256 of 10 blocked, byte 6 alone", 8, |r| bought(r, 1 << 8)),
    ("65,536 of 10 blocked, byte 7 alone", 8, |r| bought(r, 1 << 16)),
    ("65,546 of 10 blocked, the low 16 bits are 10", 8, |r| bought(r, (1 << 16) + 10)),
    ("266 of 10 blocked, the low 8 bits are 10", 8, |r| bought(r, (1 << 8) + 10)),
    ("10 of 10 in byte 7", 8, |r| bought(r, 10 << 16)),
    ("16,777,215 of 10 blocked", 8, |r| bought(r, 0xFF_FFFF)),
    ("2 of 1 blocked", 8, |r| { bought(r, 2); r.quantity = 1 }),
    ("257 of 256 blocked", 8, |r| { bought(r, 257); r.quantity = 256 }),
    ("65,537 of 65,536 blocked", 8, |r| { bought(r, 65_537); r.quantity = 65_536 }),
    ("100,000 of 99,999 blocked", 8, |r| { bought(r, 100_000); r.quantity = 99_999 }),
    ("100,001 of 100,000 blocked", 8, |r| { bought(r, 100_001); r.quantity = 100_000 }),
    ("131,072 of 100,000 blocked, byte 7 alone", 8, |r| { bought(r, 2 << 16); r.quantity = 100_000 }),
    ("16,777,215 of 100,000 blocked", 8, |r| { bought(r, 0xFF_FFFF); r.quantity = 100_000 }),
    ("1 blocked and Q 0", 8, |r| { bought(r, 1); r.quantity = 0 }),
    ("100,001 blocked and Q 100,001", 8, |r| { bought(r, 100_001); r.quantity = 100_001 }),
    ("none blocked and Q 0", 8, |r| { bought(r, 0); r.quantity = 0 }),
    ("all blocked and premium 10,000,001", 8, |r| { bought(r, 10); r.premium = 10_000_001 }),
    ("1 blocked on a written row", 7, |r| r.blocked = 1),
    ("all blocked on a written row", 7, |r| r.blocked = 10),
    ("256 blocked on a written row, byte 6 alone", 7, |r| { r.blocked = 1 << 8; r.quantity = 100_000 }),
    ("65,536 blocked on a written row, byte 7 alone", 7, |r| { r.blocked = 1 << 16; r.quantity = 100_000 }),
    ("11 of 10 blocked on a written row: 7, and 8 were it held", 7, |r| r.blocked = 11),
    ("65,536 of 10 blocked on a written row", 7, |r| r.blocked = 1 << 16),
    ("16,777,215 of 10 blocked on a written row", 7, |r| r.blocked = 0xFF_FFFF),
    ("1 blocked on a written row with a premium", 7, |r| { r.blocked = 1; r.premium = 1 }),
    ("1 blocked with side 2", 7, |r| { r.side = 2; r.blocked = 1 }),
    ("11 of 10 blocked and series 3 of 3", 7, |r| { bought(r, 11); r.series = 3 }),
    ("11 of 10 blocked and kind 5", 7, |r| { bought(r, 11); r.kind = 5 }),
    ("11 of 10 blocked and flag 32", 7, |r| { bought(r, 11); r.flags |= 32 }),
    ("11 of 10 blocked and flag 1 with kind 0", 7, |r| { bought(r, 11); *r = r.knocked_in() }),
    ("11 of 10 blocked and PB without limiter", 8, |r| { bought(r, 11); r.limiter = 1 }),
    ("11 of 10 blocked and kind 0 with a price", 8, |r| { bought(r, 11); r.barrier = 1 }),
    ("11 of 10 blocked and kind 1 at PV", 8, |r| { bought(r, 11); *r = r.with_barrier(UP_AND_IN, 3000, 0) }),
    ("all blocked and PB without limiter", 9, |r| { bought(r, 10); r.limiter = 1 }),
    ("all blocked and kind 0 with a rebate", 10, |r| { bought(r, 10); r.rebate = 1 }),
    ("all blocked and kind 1 at PV", 11, |r| { bought(r, 10); *r = r.with_barrier(UP_AND_IN, 3000, 0) }),
    ("11 of 10 blocked, knocked out", 8, |r| { bought(r, 11); *r = r.with_barrier(UP_AND_OUT, 2500, 9).knocked_out() }),
];

/// Each in the first row and in the last.
pub fn add(cases: &mut Cases) {
    cases.begin("blocked, faults");
    for fault in FAULTS {
        in_first_and_last_row(cases, fault);
    }
    in_two_rows(cases);
    last_of_the_most_rows(cases);
}

/// A fault of 8 before a fault of 7 in a later row, and the other way round;
/// and either of them after a row with contracts blocked.
fn in_two_rows(cases: &mut Cases) {
    let above = held(0, 3250, 4).with_blocked(5);
    let on_written = PositionDraft { blocked: 4, ..row_to_spoil() };
    let right = held(0, 3250, 4).with_blocked(4);
    for (name, rows, number, row) in [
        ("above Q, then on a written row", [above, on_written], 8, 0),
        ("on a written row, then above Q", [on_written, above], 7, 0),
        ("all blocked, then above Q", [right, above], 8, 1),
        ("all blocked, then on a written row", [right, on_written], 7, 1),
    ] {
        let mut draft = sound();
        draft.positions[..2].copy_from_slice(&rows);
        cases.refuse(name, draft.bytes(), number, row);
    }
}

fn last_of_the_most_rows(cases: &mut Cases) {
    let right = held(31, 3000, 9).with_blocked(9);
    let mut draft = Draft::new(vec![SeriesDraft::checked(CALL); 32], vec![right; 256]);
    cases.accept("256 rows, all blocked", draft.clone());
    draft.positions[255].blocked = 10;
    cases.refuse("row 255 of 256, above Q", draft.bytes(), 8, 255);
    draft.positions[255] = PositionDraft { blocked: 9, ..row_to_spoil() };
    cases.refuse("row 255 of 256, on a written row", draft.bytes(), 7, 255);
}
