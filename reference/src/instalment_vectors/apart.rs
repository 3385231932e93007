//! The latest pairs taken apart, and made again.

use super::accounts::{document, one_against, three_pairs, Known};
use super::lists::{mark, Lent};
use super::{above_count, amount, apart, made, refused, Asked, Cases};
use crate::draft::Draft;
use crate::lines::Entry;

/// Of the account that is tried with other content.
const PAIRS: u64 = 7;

fn known() -> [(&'static str, Known); 2] {
    [("the example", document()), ("three pairs", three_pairs())]
}

/// Every k of every count, and the same pairs made again. What stands behind
/// the count is the rest of the margin's lines.
pub fn add(cases: &mut Cases) {
    cases.begin("taken apart");
    for (name, known) in known() {
        let room = Lent::needed(&known.draft);
        for count in 0..=known.pairs.len() as u64 {
            for k in 0..=count {
                let asked = and_made_again(&known, count, k);
                let name = format!("{name}, {k} of {count}");
                cases.add(name, &known.draft, Lent::with(&known.lines(), room), asked);
            }
        }
        let asked = one_by_one(&known);
        cases.add(format!("{name}, one by one"), &known.draft, Lent::marked(room), asked);
    }
    other_content(cases);
    many_pairs(cases);
}

/// The zeros are no lines: with the former count every call is refused.
fn and_made_again(known: &Known, count: u64, k: u64) -> Vec<Asked> {
    let (left, amounts) = (count - k, &known.amounts);
    let mut asked = vec![apart(count, k), amount(left, amounts[left as usize])];
    if k > 0 {
        asked.extend(refused(count, k, 18));
    }
    asked.extend([
        above_count(left, left + 1),
        made(left, k, k),
        amount(count, amounts[count as usize]),
        apart(count, count),
        made(0, u64::MAX, known.pairs.len() as u64),
    ]);
    asked
}

/// All pairs made, taken apart one by one, and made again.
fn one_by_one(known: &Known) -> Vec<Asked> {
    let all = known.pairs.len() as u64;
    let mut asked = vec![made(0, u64::MAX, all)];
    for count in (1..=all).rev() {
        asked.extend([apart(count, 1), amount(count - 1, known.amounts[count as usize - 1])]);
    }
    asked.extend([apart(0, 0), above_count(0, 1), made(0, all, all), apart(all, all - 1)]);
    asked
}

/// Seven pairs in lists that hold marks, zeros or the largest number behind
/// the count, and are as long as they must be, or longer.
fn other_content(cases: &mut Cases) {
    let draft = one_against(PAIRS as u32);
    let needed = Lent::needed(&draft);
    let contents = [Lent::marked, |room| Lent::of(0, room), |room| Lent::of(u64::MAX, room)];
    for count in 1..=PAIRS {
        for (number, k) in [0, 1, count / 2, count - 1, count].into_iter().enumerate() {
            let lent = contents[(number + count as usize) % 3](needed + number % 2);
            let left = count - k;
            // One pair more, if there is one.
            let then = PAIRS.min(left + 1);
            let asked = vec![
                made(0, count, count),
                apart(count, k),
                made(left, 1, then - left),
                apart(then, then),
                made(0, left, left),
            ];
            cases.add(format!("seven pairs, {k} of {count}"), &draft, lent, asked);
        }
    }
}

/// 255 pairs.
fn many_pairs(cases: &mut Cases) {
    let asked = vec![
        made(0, u64::MAX, 255),
        above_count(255, 256),
        apart(255, 1),
        apart(254, 100),
        made(154, 200, 101),
        apart(255, 255),
    ];
    cases.add("255 pairs", &one_against(255), Lent::marked(512), asked);
}

/// The low bits of most of these are a k that would be accepted.
fn ks_above(count: u64, room: u64) -> Vec<u64> {
    let mut ks = vec![count + 1, count + 2, room + 1, 255, 256, 257, 65_536, u64::MAX];
    for bit in [8, 16, 31, 32, 33, 48, 63] {
        ks.extend([0, 1, count].map(|low| low + (1 << bit)));
    }
    ks.extend([u64::MAX - 1, u64::MAX - count]);
    ks
}

/// Refusal 19 where the list is right, also with pair lines behind the count.
pub fn add_above(cases: &mut Cases) {
    cases.begin("k above the count");
    for (name, known) in known() {
        let room = Lent::needed(&known.draft);
        for count in 0..=known.pairs.len() as u64 {
            let mut asked: Vec<Asked> =
                ks_above(count, room as u64).into_iter().map(|k| above_count(count, k)).collect();
            asked.push(apart(count, count));
            let lent = Lent::with(&known.pairs, room);
            cases.add(format!("{name}, of {count}"), &known.draft, lent, asked);
        }
    }
}

/// Refusals 12 and 18, which come before 19.
pub fn add_order(cases: &mut Cases) {
    cases.begin("k above a wrong count");
    let known = three_pairs();
    let [a, b, c] = [0, 1, 2].map(|line| known.pairs[line]);
    for (name, lines, count) in [
        ("a mark for the last line", [a, b, mark(2)], 3),
        ("zeros for the last line", [a, b, [0; 5]], 3),
        ("another amount in the first line", [[1, 0, 2, 2, 1], b, c], 1),
        ("another kind in the second line", [a, [2, 0, 1, 1, 100], c], 2),
        ("one above the pairs", [a, b, c], 4),
        ("2^32 above the pairs", [a, b, c], (1 << 32) + 3),
        ("the largest count but one", [a, b, c], u64::MAX - 1),
    ] {
        let room = Lent::needed(&known.draft);
        let asked = ks_about(count).into_iter().flat_map(|k| refused(count, k, 18)).collect();
        cases.add(name, &known.draft, Lent::with(&lines, room), asked);
    }
    let (rows, needed) = (known.draft.positions.len(), Lent::needed(&known.draft));
    for room in [0, 1, rows - 1, rows, needed - 1] {
        short(cases, &known.draft, &known.pairs[..room.min(3)], room);
    }
}

/// Below the count, at it and above it.
fn ks_about(count: u64) -> [u64; 5] {
    [0, count - 1, count, count + 1, u64::MAX]
}

fn short(cases: &mut Cases, draft: &Draft, lines: &[Entry], room: usize) {
    let mut asked = Vec::new();
    for count in [1, 3, 5] {
        for k in ks_about(count) {
            asked.extend(refused(count, k, 12));
        }
    }
    let name = format!("room {room} of {}", Lent::needed(draft));
    cases.add(name, draft, Lent::with(lines, room), asked);
}
