//! Pairs: which are allowed, which comes next, and all of them as made.

use crate::account::{Account, Side};
use crate::position::{amount, written_unit_margin};
use crate::spread::unit_spread_margin;

#[derive(Clone, Copy, Debug, PartialEq, Eq)]
pub struct Pair {
    pub written: usize,
    pub held: usize,
    pub quantity: i64,
    pub amount: i64,
}

/// The unit spread margin of a written and a held row where the two may be
/// paired and the pair lowers the margin; nothing otherwise. Contracts left
/// are not looked at here.
pub fn allowed_spread(account: &Account, written: usize, held: usize) -> Option<i64> {
    let w = &account.positions[written];
    let h = &account.positions[held];
    let one_of_each = w.side == Side::Written && h.side == Side::Held;
    let same_series = w.series == h.series;
    let both_may = w.european_or_before_annex() && h.european_or_before_annex();
    if !one_of_each || !same_series || !both_may {
        return None;
    }
    let series = account.series_of(written);
    let spread = unit_spread_margin(series, &h.terms(), &w.terms())?;
    let alone = written_unit_margin(series, &w.terms());
    if alone > spread {
        Some(spread)
    } else {
        None
    }
}

/// Of the pairs allowed with these contracts left: the least strike
/// difference without sign, then the lowest written row, then the lowest held
/// row. All series together. Gives written row, held row and unit spread
/// margin. Document 02 [9]: "for pairing [...] a held row has contracts left
/// only while some of these are unused", those that are not blocked.
pub fn next_pair(account: &Account, contracts_left: &[i64]) -> Option<(usize, usize, i64)> {
    let mut best: Option<(i64, usize, usize, i64)> = None;
    // Rows are tried in rising order, so that a later pair has to be better
    // than, and not as good as, the best so far.
    for written in 0..account.positions.len() {
        for held in 0..account.positions.len() {
            if contracts_left[written] == 0 || contracts_left[held] == 0 {
                continue;
            }
            let Some(spread) = allowed_spread(account, written, held) else {
                continue;
            };
            let difference =
                (account.positions[written].strike - account.positions[held].strike).abs();
            let better = match best {
                None => true,
                Some((least, _, _, _)) => difference < least,
            };
            if better {
                best = Some((difference, written, held, spread));
            }
        }
    }
    best.map(|(_, written, held, spread)| (written, held, spread))
}

/// The pair of two rows at this unit spread margin. It takes the smaller
/// quantity left.
pub fn make_pair(
    account: &Account,
    contracts_left: &mut [i64],
    written: usize,
    held: usize,
    spread: i64,
) -> Pair {
    let quantity = contracts_left[written].min(contracts_left[held]);
    contracts_left[written] -= quantity;
    contracts_left[held] -= quantity;
    let amount = amount(spread, account.series_of(written).m, quantity);
    Pair { written, held, quantity, amount }
}

/// The contracts of each row that pairs may use: none of the blocked ones.
pub fn contracts(account: &Account) -> Vec<i64> {
    account.positions.iter().map(|position| position.free()).collect()
}

/// All pairs as made, until none is allowed.
pub fn repeated_choice(account: &Account, contracts_left: &mut [i64]) -> Vec<Pair> {
    let mut pairs = Vec::new();
    while let Some((written, held, spread)) = next_pair(account, contracts_left) {
        pairs.push(make_pair(account, contracts_left, written, held, spread));
    }
    pairs
}
