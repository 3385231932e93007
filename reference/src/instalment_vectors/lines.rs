//! Lines in the list that are not the account's first pairs, refusal 18.

use super::accounts::{document, three_pairs, Known};
use super::lists::{mark, Lent};
use super::{amount, made, refused, Asked, Cases};
use crate::lines::Entry;

/// The number one more and one less, with a bit of each half, 0 and the largest.
fn others(number: u64) -> Vec<u64> {
    let beside = [number.wrapping_add(1), number.wrapping_sub(1)];
    let bits = [8, 32, 63].map(|bit| number ^ (1 << bit));
    let ends = [0, u64::MAX];
    let all = [&beside[..], &bits, &ends].concat();
    all.into_iter().filter(|other| *other != number).collect()
}

/// Each number of each of the first lines changed by itself: refused from the
/// count that takes the line in, and of no effect below it.
pub fn add_changed(cases: &mut Cases) {
    for (name, known) in [("three pairs", three_pairs()), ("the example", document())] {
        cases.begin("changed lines");
        for line in 0..known.pairs.len() {
            for place in 0..5 {
                for other in others(known.pairs[line][place]) {
                    let mut lines = known.lines();
                    lines[line][place] = other;
                    let asked = calls_about(&known, line as u64);
                    let name = format!("{name}, line {line}, number {place} is {other}");
                    cases.add(name, &known.draft, lent(&known, &lines), asked);
                }
            }
        }
    }
}

fn lent(known: &Known, lines: &[Entry]) -> Lent {
    Lent::with(lines, Lent::needed(&known.draft))
}

/// With a wrong line in this entry: every count above it, then the count at it,
/// from which the line is made anew.
fn calls_about(known: &Known, line: u64) -> Vec<Asked> {
    let pairs = known.pairs.len() as u64;
    let mut asked = Vec::new();
    for count in line + 1..=pairs {
        asked.extend(refused(count, pairs - count, 18));
    }
    asked.push(amount(line, known.amounts[line as usize]));
    asked.push(made(line, pairs, pairs - line));
    asked.push(amount(pairs, known.amounts[pairs as usize]));
    asked
}

/// Whole lines that stand elsewhere, or are something else.
pub fn add_others(cases: &mut Cases) {
    cases.begin("other lines");
    let known = three_pairs();
    let [a, b, c] = [0, 1, 2].map(|line| known.pairs[line]);
    let left = known.left[0];
    let turned = [b[0], b[2], b[1], b[3], b[4]];
    for (name, lines, first) in [
        ("first and second exchanged", [b, a, c], 0),
        ("second and third exchanged", [a, c, b], 1),
        ("from the last to the first", [c, b, a], 0),
        ("one place on", [mark(9), a, b], 0),
        ("one place back", [b, c, left], 0),
        ("the first line twice", [a, a, b], 1),
        ("the last line three times", [c, c, c], 0),
        ("a left line first", [left, a, b], 0),
        ("a left line between", [a, left, b], 1),
        ("a left line last", [a, b, left], 2),
        ("written and held row exchanged", [a, turned, c], 1),
        ("zeros", [[0; 5]; 3], 0),
        ("zeros after the first", [a, [0; 5], [0; 5]], 1),
        ("a mark in the middle", [a, mark(1), c], 1),
        ("the lines of the example", [document().pairs[0], document().pairs[1], left], 0),
    ] {
        cases.add(name, &known.draft, lent(&known, &lines), calls_about(&known, first));
    }
    of_another_file(cases, &known);
}

/// The lines of the same account before a row was changed.
fn of_another_file(cases: &mut Cases, known: &Known) {
    for (name, row, quantity, strike) in [
        ("another quantity in the third pair", 3, 4, 3020),
        ("another strike in the third pair", 3, 3, 3021),
        ("no contracts for the third pair", 0, 3, 3000),
    ] {
        let mut draft = known.draft.clone();
        draft.positions[row].quantity = quantity;
        draft.positions[row].strike = strike;
        let mut asked = refused(3, 1, 18);
        asked.push(made(2, 0, 0));
        asked.push(made(2, 9, u64::from(row == 3)));
        cases.add(name, &draft, lent(known, &known.pairs), asked);
    }
}
