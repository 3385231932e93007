//! The reading's refusals, which come before those of the day.

use super::rows::day;
use super::Cases;
use crate::day::Day;
use crate::draft::{UP_AND_IN, UP_AND_OUT};
use crate::vectors::put_fault;
use crate::vectors::rows::{row_to_spoil, sound};

/// Days for the sound account: right, without its series, with wrong prices,
/// and with both.
const DAYS: [(&str, Day); 4] = [
    ("a day in order", Day { series: 2, high: 9_000, low: 100, close: 3000 }),
    ("series 3 of 3", Day { series: 3, high: 9_000, low: 100, close: 3000 }),
    ("high below low", Day { series: 2, high: 99, low: 100, close: 3000 }),
    ("both", Day { series: u64::MAX, high: 0, low: u64::MAX, close: 1 << 32 }),
];

pub fn add(cases: &mut Cases) {
    cases.begin("readings");
    for (what, day) in DAYS {
        let name = |bytes: usize| format!("{bytes} bytes, {what}");
        cases.refuse(name(0), vec![], day, 1, 0);
        cases.refuse(name(11), vec![0; 11], day, 1, 0);
        for number in [2, 4, 5, 6, 7, 8, 9, 10, 11] {
            // Faults of the trailer have no row.
            for last in if number < 5 { vec![false] } else { vec![false, true] } {
                let mut draft = sound();
                let (_, row, _) = put_fault(&mut draft, number, last);
                cases.refuse(format!("{number}, {what}"), draft.bytes(), day, number, row);
            }
        }
    }
    let mut draft = sound();
    put_fault(&mut draft, 1, false);
    cases.refuse("65,537 bytes, both", draft.bytes(), DAYS[3].1, 1, 0);
    flags_of_days(cases);
}

/// Flags 1 and 16 on kinds that may not have them.
fn flags_of_days(cases: &mut Cases) {
    let mut draft = sound();
    for row in [
        row_to_spoil().knocked_out(),
        row_to_spoil().with_barrier(UP_AND_IN, 3500, 0).knocked_out(),
        row_to_spoil().with_barrier(UP_AND_OUT, 3500, 0).knocked_in(),
        row_to_spoil().with_barrier(UP_AND_OUT, 3500, 0).knocked_out().knocked_in(),
    ] {
        draft.positions[1] = row;
        let name = format!("kind {} flags {}", row.kind, row.flags);
        cases.refuse(name, draft.bytes(), day(0, 3500, 3000, 3500), 7, 1);
    }
}
