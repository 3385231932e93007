//! Accounts without positions have no pairs.

use super::lists::Lent;
use super::{above_count, amount, apart, made, refused, Cases};
use crate::draft::{Draft, SeriesDraft, CALL, PUT};

pub fn add(cases: &mut Cases) {
    cases.begin("no positions");
    for (type_byte, series) in [(CALL, 1), (PUT, 32)] {
        let draft = Draft::new(vec![SeriesDraft::checked(type_byte); series], vec![]);
        for room in [0, 1, 512] {
            let mut asked = vec![amount(0, 0), apart(0, 0), above_count(0, 1)];
            for allowance in [0, 1, 1 << 32, u64::MAX] {
                asked.push(made(0, allowance, 0));
            }
            for count in [1, 2, 256, 1 << 32, 1 << 63, u64::MAX] {
                asked.extend(refused(count, 0, 18));
                asked.extend(refused(count, u64::MAX, 18));
            }
            asked.extend([1 << 32, 1 << 63, u64::MAX].map(|k| above_count(0, k)));
            asked.push(amount(0, 0));
            // The longest list is tried with fewer calls.
            asked.truncate(if room == 512 { 8 } else { asked.len() });
            let name = format!("{series} series, room {room}");
            cases.add(name, &draft, Lent::marked(room), asked);
        }
    }
}
