//! The repeated search, written plainly: all pairs of a written and a held row in every round.

use reference::account::Account;
use reference::pairing::Pair;

use super::{Row, Rows};

pub fn pairs(account: &Account, left: &mut [i64]) -> Vec<Pair> {
    let rows = Rows::of(account);
    let all = || rows.list.iter().enumerate();
    let written: Vec<(usize, &Row, i64)> = all()
        .filter(|(_, row)| row.written)
        .map(|(number, row)| (number, row, row.unit_margin()))
        .collect();
    let held: Vec<(usize, &Row)> = all().filter(|(_, row)| row.held).collect();
    let mut made = Vec::new();
    while let Some((written, held)) = next_pair(&written, &held, left) {
        made.push(rows.pair(left, written, held));
    }
    made
}

/// Written rows stand with their unit margins.
fn next_pair(
    written: &[(usize, &Row, i64)],
    held: &[(usize, &Row)],
    left: &[i64],
) -> Option<(usize, usize)> {
    let mut best = None;
    let mut least = u64::MAX;
    for (w, written, unit_margin) in written.iter().filter(|(w, _, _)| left[*w] > 0) {
        for (h, held) in held.iter() {
            let open = left[*h] > 0 && held.series_number == written.series_number;
            if !open || !written.lowered_by(held, *unit_margin) {
                continue;
            }
            let difference = written.strike().abs_diff(held.strike());
            if difference < least {
                least = difference;
                best = Some((*w, *h));
            }
        }
    }
    best
}
