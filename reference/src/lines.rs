//! Lines and total.

use crate::account::{Account, Side};
use crate::pairing::{allowed_spread, contracts, repeated_choice, Pair};
use crate::position::{amount, exact_amount, premium_amount, written_unit_margin};
use crate::reader::{read_account, Refusal};

#[derive(Clone, Copy, Debug, PartialEq, Eq)]
pub struct Left {
    pub row: usize,
    pub quantity: i64,
    pub amount: i64,
}

/// The whole answer for an accepted account.
#[derive(Clone, Debug, PartialEq, Eq)]
pub struct Margin {
    /// Pairs as made.
    pub pairs: Vec<Pair>,
    /// Rows with contracts left, blocked or not, in row order.
    pub left: Vec<Left>,
    /// Premium × M × Q of every held row, paired or not.
    pub premium: i64,
    /// Line amounts and premium.
    pub total: i64,
}

/// A way of making all pairs of an account; it lowers the contracts left.
pub type Pairing = fn(&Account, &mut [i64]) -> Vec<Pair>;

/// Pairs, rows left, premium and total of an account.
pub fn margin(account: &Account) -> Margin {
    margin_by(account, repeated_choice)
}

/// The same with the pairs made in any way.
pub fn margin_by(account: &Account, pairing: Pairing) -> Margin {
    let mut contracts_left = contracts(account);
    let pairs = pairing(account, &mut contracts_left);
    margin_with(account, pairs, &contracts_left)
}

/// Rows left, premium and total with these pairs made, and so many contracts of
/// each row left that pairs may still use.
pub fn margin_with(account: &Account, pairs: Vec<Pair>, contracts_left: &[i64]) -> Margin {
    let left = rows_left(account, contracts_left);
    let premium = (0..account.positions.len()).map(|row| premium_amount(account, row)).sum();
    let pair_amounts: i64 = pairs.iter().map(|p| p.amount).sum();
    let left_amounts: i64 = left.iter().map(|l| l.amount).sum();
    let total = pair_amounts + left_amounts + premium;
    Margin { pairs, left, premium, total }
}

/// Rows with contracts left, in row order. Given are those that pairs may still
/// use; document 02 [9]: "The left line of a held row counts blocked ones too."
pub fn rows_left(account: &Account, contracts_left: &[i64]) -> Vec<Left> {
    let mut left = Vec::with_capacity(contracts_left.len());
    for (row, position) in account.positions.iter().enumerate() {
        let quantity = contracts_left[row] + position.blocked;
        if quantity == 0 {
            continue;
        }
        let series = account.series_of(row);
        let amount = match position.side {
            Side::Held => 0,
            Side::Written => {
                let unit = written_unit_margin(series, &position.terms());
                amount(unit, series.m, quantity)
            }
        };
        left.push(Left { row, quantity, amount });
    }
    left
}

/// The amount of so many contracts left in a row before it is rounded, in
/// millionths of a centavo.
pub fn exact_of_left(account: &Account, row: usize, quantity: i64) -> i128 {
    let (series, position) = (account.series_of(row), &account.positions[row]);
    if position.side == Side::Held {
        return 0;
    }
    exact_amount(written_unit_margin(series, &position.terms()), series.m, quantity)
}

/// The same of so many contracts of a pair.
pub fn exact_of_pair(account: &Account, written: usize, held: usize, quantity: i64) -> i128 {
    let unit = allowed_spread(account, written, held).expect("an allowed pair");
    exact_amount(unit, account.series_of(written).m, quantity)
}

/// The unsettled premiums of all held rows, by themselves.
pub fn premiums(bytes: &[u8]) -> Result<i64, Refusal> {
    let account = read_account(bytes)?;
    Ok((0..account.positions.len()).map(|row| premium_amount(&account, row)).sum())
}

/// An entry of the caller's list: 1 for a pair or 2 for a row left, then the
/// fields; the fifth number of a row left is 0.
pub type Entry = [u64; 5];

pub fn pair_entry(p: &Pair) -> Entry {
    [1, p.written as u64, p.held as u64, p.quantity as u64, p.amount as u64]
}

/// 12: the list has fewer than 2 × p entries (document 02 [9]).
pub fn list_long_enough(account: &Account, list: &[Entry]) -> Result<(), Refusal> {
    if list.len() < 2 * account.positions.len() {
        return Err(Refusal { number: 12, row: 0 });
    }
    Ok(())
}

/// Line count and total, with the lines written to the caller's list. Entries
/// after the line count stay, and on a refusal the whole list stays. The file
/// comes first, then the list's length.
pub fn margin_into(bytes: &[u8], list: &mut [Entry]) -> Result<(usize, i64), Refusal> {
    margin_into_by(bytes, list, repeated_choice)
}

/// The same with the pairs made in any way.
pub fn margin_into_by(
    bytes: &[u8],
    list: &mut [Entry],
    pairing: Pairing,
) -> Result<(usize, i64), Refusal> {
    let account = read_account(bytes)?;
    list_long_enough(&account, list)?;
    let answer = margin_by(&account, pairing);
    let pairs = answer.pairs.iter().map(pair_entry);
    let left = answer.left.iter().map(|l| [2, l.row as u64, l.quantity as u64, l.amount as u64, 0]);
    let mut count = 0;
    for (entry, line) in list.iter_mut().zip(pairs.chain(left)) {
        *entry = line;
        count += 1;
    }
    Ok((count, answer.total))
}
