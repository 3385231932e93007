//! Pairing in instalments (document 02 [7]): "A call gets the file, the list and
//! the number of pair lines already in it, makes at most as many pairs as it is
//! allowed, and reports how many it made." Between calls the account's amount
//! may be asked for.
//!
//! Taking pairs apart (document 02 [8]): "The latest k pair lines are removed
//! and their entries become all zeros. The count falls by k."

use crate::account::Account;
use crate::lines::{list_long_enough, margin_with, pair_entry, Entry};
use crate::pairing::{contracts, make_pair, next_pair, Pair};
use crate::reader::{read_account, Refusal};

/// An account with its first pairs made.
#[derive(Clone, Debug, PartialEq, Eq)]
pub struct HalfPaired {
    pub account: Account,
    /// Pairs as made.
    pub pairs: Vec<Pair>,
    /// The contracts of each row that pairs may still use after them.
    pub contracts_left: Vec<i64>,
}

impl HalfPaired {
    /// No pair made.
    pub fn begun(account: Account) -> HalfPaired {
        let contracts_left = contracts(&account);
        HalfPaired { account, pairs: Vec::new(), contracts_left }
    }

    /// Makes at most so many pairs more, and gives how many it made.
    pub fn make(&mut self, allowance: u64) -> u64 {
        let mut made = 0;
        while made < allowance {
            let Some((written, held, spread)) = next_pair(&self.account, &self.contracts_left)
            else {
                break;
            };
            let contracts_left = &mut self.contracts_left;
            self.pairs.push(make_pair(&self.account, contracts_left, written, held, spread));
            made += 1;
        }
        made
    }

    /// Takes the latest `k` pairs apart, or all: their contracts are left again.
    pub fn take_apart(&mut self, k: u64) {
        let left = self.pairs.len().saturating_sub(k as usize);
        for pair in self.pairs.split_off(left) {
            self.contracts_left[pair.written] += pair.quantity;
            self.contracts_left[pair.held] += pair.quantity;
        }
    }

    /// "Pairs so far, every remainder by the amount of its left line (0 if
    /// held), and the premiums."
    pub fn amount(&self) -> i64 {
        margin_with(&self.account, self.pairs.clone(), &self.contracts_left).total
    }
}

/// The account of the file with those pairs made that are in the list. The
/// reading's refusals come first, then 12, then 18: the lines in the list are
/// not the account's first pairs.
fn read_half_paired(bytes: &[u8], list: &[Entry], count: u64) -> Result<HalfPaired, Refusal> {
    let account = read_account(bytes)?;
    list_long_enough(&account, list)?;
    let mut half = HalfPaired::begun(account);
    let made = half.make(count);
    // There are fewer pairs than positions, and so no more than entries.
    let lines: Vec<Entry> = half.pairs.iter().map(pair_entry).collect();
    if made != count || list[..lines.len()] != lines {
        return Err(Refusal { number: 18, row: 0 });
    }
    Ok(half)
}

/// Makes at most so many pairs more than the first `count` that are in the
/// list, writes them behind those and gives how many they are. Every other
/// entry stays, and on a refusal the whole list stays.
pub fn pair_into(
    bytes: &[u8],
    list: &mut [Entry],
    count: u64,
    allowance: u64,
) -> Result<u64, Refusal> {
    let mut half = read_half_paired(bytes, list, count)?;
    let before = half.pairs.len();
    let made = half.make(allowance);
    for (entry, pair) in list[before..].iter_mut().zip(&half.pairs[before..]) {
        *entry = pair_entry(pair);
    }
    Ok(made)
}

/// The account's amount with the first `count` pairs, which are in the list.
pub fn amount_so_far(bytes: &[u8], list: &[Entry], count: u64) -> Result<i64, Refusal> {
    Ok(read_half_paired(bytes, list, count)?.amount())
}

/// Removes the latest `k` of the first `count` lines, which are in the list, and
/// gives how many are left. Their entries become zeros; every other entry
/// stays, and on a refusal the whole list stays. 19 is checked after 18.
pub fn take_apart_in(bytes: &[u8], list: &mut [Entry], count: u64, k: u64) -> Result<u64, Refusal> {
    let mut half = read_half_paired(bytes, list, count)?;
    if k > count {
        return Err(Refusal { number: 19, row: 0 });
    }
    let before = half.pairs.len();
    half.take_apart(k);
    let left = half.pairs.len();
    list[left..before].fill([0; 5]);
    Ok(left as u64)
}
