//! Checks the four points of the document's section on paths by trying paths,
//! that a half-paired account is covered too (document 02 [7]), and that no
//! blocked contract serves in a pair (document 02 [9]). The cover is checked
//! where document 02 [11] promises it, the least amount where every fb is at
//! most 1,000,000.

mod account_paths;
mod prices;
mod promised;
mod series_paths;

pub use account_paths::check_cover;
pub use prices::prices_of_interest;
pub use promised::{cover_promised, least_amount_promised};

use crate::account::{Account, Limiter, Side, Terms};
use crate::instalments::HalfPaired;
use crate::lines::{margin, margin_with, Margin};
use crate::pairing::allowed_spread;
use crate::position::written_unit_margin;
use account_paths::check_on_paths;

/// What is checked: the answer given for an account.
#[derive(Clone, Debug)]
pub struct Claim {
    /// Unit margin of every written row, in fine units; 0 for held rows.
    pub units: Vec<i64>,
    pub margin: Margin,
    /// The account's amount before all pairs are made, as a total: the lines
    /// after each number of pairs below all of them, from none on.
    pub half_paired: Vec<Margin>,
}

impl Claim {
    /// After each number of pairs; the last one is the whole margin.
    fn after_each_pair(&self) -> Vec<&Margin> {
        self.half_paired.iter().chain([&self.margin]).collect()
    }
}

/// The answer this package gives.
pub fn reference_claim(account: &Account) -> Claim {
    let units = account
        .positions
        .iter()
        .enumerate()
        .map(|(row, position)| match position.side {
            Side::Held => 0,
            Side::Written => written_unit_margin(account.series_of(row), &position.terms()),
        })
        .collect();
    Claim { units, margin: margin(account), half_paired: half_paired(account) }
}

/// The account after each number of pairs below all of them, made one by one.
fn half_paired(account: &Account) -> Vec<Margin> {
    let mut half = HalfPaired::begun(account.clone());
    let mut all = Vec::new();
    loop {
        let so_far = margin_with(account, half.pairs.clone(), &half.contracts_left);
        let total = half.amount();
        if half.make(1) == 0 {
            return all;
        }
        all.push(Margin { total, ..so_far });
    }
}

/// Pairs of different options of which one or both have a limiter.
pub fn limited_pairs(account: &Account, margin: &Margin) -> usize {
    let limited = |terms: Terms| terms.limiter != Limiter::Absent;
    margin
        .pairs
        .iter()
        .map(|pair| [pair.written, pair.held].map(|row| account.positions[row].terms()))
        .filter(|[written, held]| written != held && (limited(*written) || limited(*held)))
        .count()
}

/// All four points, the contracts, the cover and the blocked contracts after
/// each number of pairs. Gives the number of path steps tried, or the first
/// violation in words. Where the cover is not promised no path is tried. Where
/// some fb is above 1,000,000 the blocked contracts are looked at before the
/// paths, else after them.
pub fn check(account: &Account, claim: &Claim, longest_path: usize) -> Result<u64, String> {
    for margin in claim.after_each_pair() {
        check_contracts(account, margin)?;
    }
    check_no_pair_left_unmade(account, &claim.margin)?;
    let blocked = || {
        let mut margins = claim.after_each_pair().into_iter();
        margins.try_for_each(|margin| check_blocked(account, margin))
    };
    if least_amount_promised(account) {
        let steps = check_on_paths(account, claim, longest_path)?;
        return blocked().map(|()| steps);
    }
    blocked()?;
    if cover_promised(account) {
        check_on_paths(account, claim, longest_path)
    } else {
        Ok(0)
    }
}

/// Contracts: pair lines and left line of every row add up to Q.
fn check_contracts(account: &Account, margin: &Margin) -> Result<(), String> {
    for (row, position) in account.positions.iter().enumerate() {
        let left: i64 = margin.left.iter().filter(|l| l.row == row).map(|l| l.quantity).sum();
        let found = in_pairs(margin, row) + left;
        if found != position.quantity {
            return Err(format!(
                "contracts: row {row} has {} contracts, its lines have {found}",
                position.quantity
            ));
        }
    }
    Ok(())
}

/// Contracts of a row in all pair lines.
fn in_pairs(margin: &Margin, row: usize) -> i64 {
    margin.pairs.iter().filter(|p| p.written == row || p.held == row).map(|p| p.quantity).sum()
}

/// Document 02 [9]: "Pairs use at most Q less the blocked."
fn check_blocked(account: &Account, margin: &Margin) -> Result<(), String> {
    for (row, position) in account.positions.iter().enumerate() {
        let taken = in_pairs(margin, row);
        if taken > position.quantity - position.blocked {
            return Err(format!(
                "blocked: {} of {} contracts of row {row}, its pairs take {taken}",
                position.blocked, position.quantity
            ));
        }
    }
    Ok(())
}

/// Pairs left unmade: after all pair lines no pair is allowed. A held row has
/// contracts left only while some that are not blocked are unused.
fn check_no_pair_left_unmade(account: &Account, margin: &Margin) -> Result<(), String> {
    let has_left = |row: &usize| {
        let position = &account.positions[*row];
        position.quantity - position.blocked > in_pairs(margin, *row)
    };
    let rows: Vec<usize> = (0..account.positions.len()).filter(has_left).collect();
    for &written in &rows {
        for &held in &rows {
            if allowed_spread(account, written, held).is_some() {
                return Err(format!(
                    "pairs left unmade: written row {written} and held row {held}"
                ));
            }
        }
    }
    Ok(())
}
