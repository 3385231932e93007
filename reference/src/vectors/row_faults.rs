//! Faults of rows, each in the first row of its table and in the last.

use super::position_faults::POSITION_FAULTS;
use super::rows::{row_to_spoil, sound, written};
use super::Cases;
use crate::draft::{
    Draft, PositionDraft, SeriesDraft, CALL, DOWN_AND_IN, DOWN_AND_OUT, UP_AND_IN, UP_AND_OUT,
};

struct SeriesFault {
    /// Of the refusal.
    number: i64,
    what: &'static str,
    spoil: fn(&mut SeriesDraft),
}

const fn fault(number: i64, what: &'static str, spoil: fn(&mut SeriesDraft)) -> SeriesFault {
    SeriesFault { number, what, spoil }
}

#[rustfmt::skip]
const SERIES_FAULTS: [SeriesFault; 16] = [
    fault(5, "PV 0", |s| s.pv = 0),
    fault(5, "PV 10,000,001", |s| s.pv = 10_000_001),
    fault(5, "PV highest", |s| s.pv = u32::MAX),
    fault(5, "fa 999,999", |s| s.fa = 999_999),
    fault(5, "fa 0", |s| { s.fa = 0; s.fb = 0 }),
    fault(5, "fa 10,000,001", |s| s.fa = 10_000_001),
    fault(5, "fb above fa", |s| s.fb = s.fa + 1),
    fault(5, "fb highest", |s| s.fb = u32::MAX),
    fault(5, "f3 1,000,001", |s| s.f3 = 1_000_001),
    fault(5, "M 0", |s| s.m = 0),
    fault(5, "M 1,001", |s| s.m = 1_001),
    fault(6, "type 2", |s| s.type_byte = 2),
    fault(6, "type 255", |s| s.type_byte = 255),
    fault(6, "spare byte 0", |s| s.spare[0] = 1),
    fault(6, "spare byte 1", |s| s.spare[1] = 1),
    fault(6, "spare byte 2", |s| s.spare[2] = 255),
];

pub fn add(cases: &mut Cases) {
    cases.begin("row faults");
    for fault in SERIES_FAULTS {
        for row in [0, 2] {
            let mut draft = sound();
            (fault.spoil)(&mut draft.series[row]);
            let name = format!("series row {row}: {}", fault.what);
            cases.refuse(name, draft.bytes(), fault.number, row);
        }
    }
    for fault in POSITION_FAULTS {
        in_first_and_last_row(cases, (fault.what, fault.number, fault.spoil));
    }
    last_of_the_most_rows(cases);
    no_price_on_the_right_side(cases);
}

/// What is wrong with a position row, the refusal's number, and the change that
/// makes it so.
pub type Fault = (&'static str, i64, fn(&mut PositionDraft));

/// The fault in the first position row, and in the last.
pub fn in_first_and_last_row(cases: &mut Cases, (what, number, spoil): Fault) {
    for row in [0, 4] {
        let mut draft = sound();
        draft.positions[row] = row_to_spoil();
        spoil(&mut draft.positions[row]);
        cases.refuse(format!("position row {row}: {what}"), draft.bytes(), number, row);
    }
}

/// The last of 256 rows and of 32 series.
fn last_of_the_most_rows(cases: &mut Cases) {
    let mut draft = Draft::new(vec![SeriesDraft::checked(CALL); 32], vec![row_to_spoil(); 256]);
    draft.positions[255].quantity = 0;
    cases.refuse("row 255 of 256", draft.bytes(), 8, 255);
    draft.series[31].m = 0;
    cases.refuse("series 31 of 32", draft.bytes(), 5, 31);
}

/// PV at an end of its range.
fn no_price_on_the_right_side(cases: &mut Cases) {
    for (pv, kind, price, number) in [
        (10_000_000, UP_AND_IN, 10_000_000, 11),
        (10_000_000, UP_AND_OUT, 10_000_001, 10),
        (1, DOWN_AND_IN, 1, 11),
        (1, DOWN_AND_OUT, 0, 10),
    ] {
        let series = SeriesDraft { pv, ..SeriesDraft::checked(CALL) };
        let draft = Draft::new(vec![series], vec![written(0, 5, 1).with_barrier(kind, price, 0)]);
        cases.refuse(format!("PV {pv} kind {kind}"), draft.bytes(), number, 0);
    }
}
