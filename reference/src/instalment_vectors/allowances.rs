//! Lists of allowances, each begun with no pair lines.

use super::accounts::one_against;
use super::lists::Lent;
use super::{made, Asked, Cases};
use crate::draft::Draft;
use crate::instalment_cases::Call;

/// Of the account of these cases.
const PAIRS: u64 = 7;

const SHORT: [&[u64]; 12] = [
    &[],
    &[0],
    &[0, 0, 1],
    &[1, 1, 1, 1, 1, 1, 1, 1],
    &[2, 2, 2, 2, 2],
    &[3, 0, 4, 1],
    &[6, 1, 1],
    &[6, 2],
    &[7],
    &[7, 0, 7],
    &[8],
    &[256],
];
/// The low bits of some of these are 0, 1 or 2.
const LONG: [&[u64]; 11] = [
    &[65_536, 1],
    &[65_537],
    &[1 << 32],
    &[(1 << 32) + 1],
    &[1, 1 << 32],
    &[1, (1 << 32) + 2, 5],
    &[1 << 63],
    &[2, (1 << 63) + 1],
    &[u64::MAX],
    &[3, u64::MAX],
    &[u64::MAX, u64::MAX, u64::MAX],
];

pub fn add(cases: &mut Cases) {
    cases.begin("allowances");
    let draft = one_against(PAIRS as u32);
    let room = Lent::needed(&draft);
    let contents = [Lent::marked, |room| Lent::of(0, room), |room| Lent::of(u64::MAX, room)];
    for (number, allowances) in SHORT.into_iter().chain(LONG).enumerate() {
        let lent = contents[number % contents.len()](room + number % 3);
        cases.add(format!("{allowances:?}"), &draft, lent, instalments(PAIRS, allowances));
    }
    pairs_already_there(cases, &draft);
}

/// So many pairs of an account by these allowances, and the amount after each.
pub fn instalments(pairs: u64, allowances: &[u64]) -> Vec<Asked> {
    let mut count = 0;
    let mut asked = vec![(Call::Amount { count }, None)];
    for &allowance in allowances {
        let more = allowance.min(pairs - count);
        asked.push(made(count, allowance, more));
        count += more;
        asked.push((Call::Amount { count }, None));
    }
    asked
}

/// Begun again in a list that holds all pairs, or other lines: only the count
/// says what is in it.
fn pairs_already_there(cases: &mut Cases, draft: &Draft) {
    let room = Lent::needed(draft);
    for allowance in [0, 1, 3, PAIRS, u64::MAX] {
        let mut asked = instalments(PAIRS, &[u64::MAX]);
        asked.extend(instalments(PAIRS, &[allowance, 2]));
        cases.add(format!("all, then {allowance}"), draft, Lent::marked(room), asked);
    }
    for allowance in [0, 1, u64::MAX] {
        let other = Lent::with(&[[1, 0, 1, 2, 3]; 4], room);
        let asked = instalments(PAIRS, &[allowance, 1]);
        cases.add(format!("other lines, then {allowance}"), draft, other, asked);
    }
}
