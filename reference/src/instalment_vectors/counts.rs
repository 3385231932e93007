//! Counts above the pairs, and numbers of 64 bits.

use super::accounts::{document, three_pairs, Known};
use super::lists::{mark, Lent};
use super::{amount, made, refused, Asked, Cases};
use crate::draft::CALL;
use crate::vectors::rows::one_series;

/// The low bits of most of these are a count that would be accepted.
fn above(pairs: u64, room: u64) -> Vec<u64> {
    let mut counts = vec![pairs + 1, pairs + 2, room, room + 1, 255, 256, 257, 65_536, u64::MAX];
    for bit in [8, 16, 31, 32, 33, 48, 63] {
        counts.extend([0, 1, pairs].map(|low| low + (1 << bit)));
    }
    counts.extend([u64::MAX - 1, u64::MAX - pairs, u64::MAX - room]);
    counts
}

/// Every line is a pair of the account, or made like one.
pub fn add(cases: &mut Cases) {
    cases.begin("counts");
    for (name, known) in [("the example", document()), ("three pairs", three_pairs())] {
        let (needed, pairs) = (Lent::needed(&known.draft), known.pairs.len());
        for room in [needed, needed + 5] {
            let last = known.pairs[pairs - 1];
            let mut lent = Lent::with(&known.pairs, room);
            lent.entries[pairs..].fill(last);
            let mut asked = Vec::new();
            for (number, count) in above(pairs as u64, room as u64).into_iter().enumerate() {
                let allowance = [0, 1, 3, u64::MAX - count, u64::MAX][number % 5];
                asked.extend(refused(count, allowance, 18));
            }
            asked.extend(accepted(&known));
            cases.add(format!("{name}, room {room}"), &known.draft, lent, asked);
        }
    }
    without_pairs(cases);
}

/// What is still answered after all the refusals.
fn accepted(known: &Known) -> Vec<Asked> {
    let pairs = known.pairs.len() as u64;
    vec![amount(pairs, known.amounts[pairs as usize]), made(pairs, 1, 0), made(1, 1, 1)]
}

/// Rows, but no pair: of one side, or in different series.
fn without_pairs(cases: &mut Cases) {
    let known = three_pairs();
    let rows = &known.draft.positions;
    let of_one_side = |range: std::ops::Range<usize>| one_series(CALL, rows[range].to_vec());
    let mut apart = known.draft.clone();
    apart.series.push(apart.series[0]);
    apart.positions[0].series = 1;
    for (name, draft, centavos) in [
        ("one written row", of_one_side(0..1), 30_000),
        ("held rows alone", of_one_side(1..4), 70),
        ("in different series", apart, 30_070),
    ] {
        let room = Lent::needed(&draft);
        let mut asked = vec![amount(0, centavos), made(0, 0, 0), made(0, u64::MAX, 0)];
        for count in [1, room as u64, 256, 1 << 32, u64::MAX] {
            asked.extend(refused(count, 1, 18));
        }
        asked.push(amount(0, centavos));
        cases.add(name, &draft, Lent::with(&[mark(77)], room), asked);
    }
}

/// The lines of the margin, with the count that takes left lines in.
pub fn add_with_left_lines(cases: &mut Cases) {
    cases.begin("left lines counted");
    for (name, known) in [("the example", document()), ("three pairs", three_pairs())] {
        let room = Lent::needed(&known.draft);
        let lines = known.lines();
        let mut asked = Vec::new();
        for count in known.pairs.len() + 1..=room {
            asked.extend(refused(count as u64, 1, 18));
        }
        asked.extend(accepted(&known));
        cases.add(name, &known.draft, Lent::with(&lines, room), asked);
        // The left line where the last pair stood.
        let mut lines = known.pairs.clone();
        lines.pop();
        lines.extend(&known.left);
        let asked = refused(known.pairs.len() as u64, 0, 18);
        let name = format!("{name}, in place of the last pair");
        cases.add(name, &known.draft, Lent::with(&lines, room), asked);
    }
}
