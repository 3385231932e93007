//! The reading's refusals, which come before those of the list and its lines.

use super::lists::Lent;
use super::{refused_at, Asked, Cases};
use crate::instalment_cases::Call;
use crate::reader::Refusal;
use crate::vectors::put_fault;
use crate::vectors::rows::sound;

/// Of the account without its fault.
const PAIR: [u64; 5] = [1, 0, 1, 4, 3000];

/// The entries that its five rows need.
const ROOM: usize = 10;

pub fn add(cases: &mut Cases) {
    cases.begin("readings");
    for bytes in [0, 11] {
        for room in [0, ROOM] {
            let asked = calls(1, 0);
            let name = format!("{bytes} bytes, room {room}");
            cases.add_bytes(name, vec![0; bytes], Lent::marked(room), asked);
        }
    }
    for number in [2, 4, 5, 6, 7, 8, 9, 10, 11] {
        // Faults of the trailer have no row.
        for last in if number < 5 { vec![false] } else { vec![false, true] } {
            let mut draft = sound();
            let (_, row, _) = put_fault(&mut draft, number, last);
            // Long enough with the first pair, and too short.
            cases.add(format!("{number}"), &draft, Lent::with(&[PAIR], ROOM), calls(number, row));
            cases.add(
                format!("{number}, short"),
                &draft,
                Lent::marked(ROOM - 1),
                calls(number, row),
            );
        }
    }
    // The sound account itself: its lines are looked at.
    let asked = vec![
        (Call::Pair { count: 0, allowance: 1 }, Some(Ok(1))),
        (Call::Pair { count: 1, allowance: 1 }, Some(Ok(0))),
        (Call::Amount { count: 1 }, None),
        (Call::Apart { count: 1, k: 2 }, Some(Err(Refusal { number: 19, row: 0 }))),
        (Call::Apart { count: 1, k: 1 }, Some(Ok(0))),
    ];
    cases.add("sound", &sound(), Lent::marked(ROOM), asked);
    let mut draft = sound();
    put_fault(&mut draft, 1, false);
    cases.add("65,537 bytes", &draft, Lent::with(&[PAIR], ROOM), calls(1, 0));
}

/// Counts, allowances and k that are right, and others, all refused alike.
fn calls(number: i64, row: usize) -> Vec<Asked> {
    let numbers = [(0, 0), (0, 1), (1, u64::MAX), (2, 0), (u64::MAX, u64::MAX)];
    let of = |(count, allowance)| refused_at(count, allowance, number, row);
    numbers.into_iter().flat_map(of).collect()
}
