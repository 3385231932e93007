//! The cover and the least amount, by the paths of all series of an account.

use std::cmp::max;

use super::promised::least_amount_promised;
use super::series_paths::{shown_by_paths, Shown};
use super::Claim;
use crate::account::{Account, Side, MILLION};

/// The cover, that unit margins and unit spread margins cover by themselves,
/// and where it is promised the least amount. Gives the number of path steps
/// tried, or the first violation.
pub fn check_on_paths(
    account: &Account,
    claim: &Claim,
    longest_path: usize,
) -> Result<u64, String> {
    let shown = shown_by_all_series(account, claim, longest_path)?;
    for of_series in &shown {
        if let Some(words) = &of_series.uncovered_unit {
            return Err(words.clone());
        }
    }
    if least_amount_promised(account) {
        check_least_amount(account, claim, &shown)?;
    }
    check_cover_shown(claim, &shown)?;
    Ok(shown.iter().map(|of_series| of_series.steps).sum())
}

/// The cover by itself, of every amount of the claim, whether or not document
/// 02 [11] promises it.
pub fn check_cover(account: &Account, claim: &Claim, longest_path: usize) -> Result<(), String> {
    check_cover_shown(claim, &shown_by_all_series(account, claim, longest_path)?)
}

/// The paths of a series without rows are tried too.
fn shown_by_all_series(
    account: &Account,
    claim: &Claim,
    longest_path: usize,
) -> Result<Vec<Shown>, String> {
    let numbers = 0..account.series.len();
    numbers.map(|number| shown_by_paths(account, claim, number, longest_path)).collect()
}

/// The series choose their paths freely, so that the worst of the account is
/// the sum of the worst of each series.
fn check_cover_shown(claim: &Claim, shown: &[Shown]) -> Result<(), String> {
    for (at, margin) in claim.after_each_pair().into_iter().enumerate() {
        let worst: i128 = shown.iter().map(|of_series| of_series.worst[at].out).sum();
        if i128::from(margin.total) * i128::from(MILLION) < worst {
            let paths: Vec<_> = shown.iter().map(|of_series| &of_series.worst[at].path).collect();
            return Err(format!(
                "the cover: total {} centavos with {} pairs, the worst paths take {worst} \
                 millionths of a centavo: {paths:?}",
                margin.total,
                margin.pairs.len()
            ));
        }
    }
    Ok(())
}

/// The least amount, second half. The least amount that covers a row on the
/// paths tried and is at least MM, with one fine unit added, is at least the
/// unit margin. With flag 16 it is so without the minimum and without a fine
/// unit more.
fn check_least_amount(account: &Account, claim: &Claim, shown: &[Shown]) -> Result<(), String> {
    for (row, position) in account.positions.iter().enumerate() {
        if position.side == Side::Held {
            continue;
        }
        let pays = shown[position.series].largest_payment[row];
        let (least, added) = if position.already_knocked_out {
            (pays, 0)
        } else {
            (max(account.series_of(row).minimum_margin(), pays), 1)
        };
        let unit = claim.units[row];
        if least + added < unit {
            return Err(format!(
                "the least amount: {least} covers row {row} on all paths tried, \
                 its unit margin is {unit}"
            ));
        }
    }
    Ok(())
}
