//! What the paths of one series show.

use std::cmp::{max, min};

use super::prices::{prices_of_interest, walk};
use super::promised::least_amount_promised;
use super::{in_pairs, Claim};
use crate::account::{Account, Series, Side};
use crate::lines::Margin;
use crate::paths::payment;
use crate::spread::unit_spread_margin;

/// What was seen on the paths of a series.
pub struct Shown {
    pub steps: u64,
    /// After each number of pairs.
    pub worst: Vec<Worst>,
    /// Of each row of the account; 0 for rows of other series.
    pub largest_payment: Vec<i64>,
    /// The first unit margin or unit spread margin that a path passes, in words.
    pub uncovered_unit: Option<String>,
}

/// What written rows pay out less what the pairs bring in, at worst, in
/// millionths of a centavo, and on which path.
pub struct Worst {
    pub out: i128,
    pub path: Vec<i64>,
}

struct Watch<'a> {
    account: &'a Account,
    claim: &'a Claim,
    series: &'a Series,
    /// The rows of the series.
    written: Vec<usize>,
    held: Vec<usize>,
    /// After each number of pairs.
    margins: Vec<&'a Margin>,
    shown: Shown,
}

/// Tries the paths of a series of up to a given length.
pub fn shown_by_paths(
    account: &Account,
    claim: &Claim,
    number: usize,
    longest_path: usize,
) -> Result<Shown, String> {
    let mut watch = Watch::new(account, claim, number);
    let prices = prices_of_interest(account, number);
    let series = watch.series;
    walk(series, &prices, &mut Vec::new(), longest_path, &mut |path| watch.look_at(path));
    if watch.shown.steps == 0 {
        return Err(format!("series {number} has no path"));
    }
    Ok(watch.shown)
}

impl<'a> Watch<'a> {
    fn new(account: &'a Account, claim: &'a Claim, number: usize) -> Watch<'a> {
        let rows_of = |side: Side| {
            let of_side = |row: &usize| {
                account.positions[*row].series == number && account.positions[*row].side == side
            };
            (0..account.positions.len()).filter(of_side).collect()
        };
        Watch {
            account,
            claim,
            series: &account.series[number],
            written: rows_of(Side::Written),
            held: rows_of(Side::Held),
            margins: claim.after_each_pair(),
            shown: Shown {
                steps: 0,
                worst: Vec::new(),
                largest_payment: vec![0; account.positions.len()],
                uncovered_unit: None,
            },
        }
    }

    fn look_at(&mut self, path: &[i64]) {
        self.shown.steps += 1;
        let mut pays = vec![0; self.account.positions.len()];
        for &row in self.written.iter().chain(&self.held) {
            let terms = self.account.positions[row].terms();
            pays[row] = payment(self.series.option_type, &terms, path);
            let largest = &mut self.shown.largest_payment[row];
            *largest = max(*largest, pays[row]);
        }
        for (at, margin) in self.margins.iter().enumerate() {
            let out = self.paid_out(margin, &pays);
            let worst = &mut self.shown.worst;
            if at == worst.len() {
                worst.push(Worst { out, path: path.to_vec() });
            } else if worst[at].out < out {
                worst[at] = Worst { out, path: path.to_vec() };
            }
        }
        if self.shown.uncovered_unit.is_none() {
            let covered = self.units_cover(&pays, path).and(self.spreads_cover(&pays, path));
            self.shown.uncovered_unit = covered.err();
        }
    }

    /// What written rows pay out less what the pairs of a margin bring in. Of a
    /// held row that is at most what its contracts bring in that are not
    /// blocked (document 02 [9]).
    fn paid_out(&self, margin: &Margin, pays: &[i64]) -> i128 {
        let money = |row: usize, quantity: i64| {
            i128::from(pays[row]) * i128::from(self.series.m) * i128::from(quantity)
        };
        let position = |row: usize| &self.account.positions[row];
        let out: i128 = self.written.iter().map(|&row| money(row, position(row).quantity)).sum();
        let brings_in = |row: usize| {
            let free = position(row).quantity - position(row).blocked;
            money(row, min(in_pairs(margin, row), free))
        };
        out - self.held.iter().map(|&row| brings_in(row)).sum::<i128>()
    }

    /// The least amount, first half: the unit margin covers. Where an fb is
    /// above 1,000,000 the document promises the cover alone, and this is
    /// sharper than it asks.
    fn units_cover(&self, pays: &[i64], path: &[i64]) -> Result<(), String> {
        for &row in &self.written {
            let (pays, unit) = (pays[row], self.claim.units[row]);
            if unit < pays {
                let what = if least_amount_promised(self.account) {
                    "the least amount"
                } else {
                    "a unit margin (with an fb above 1,000,000 the cover alone is promised)"
                };
                return Err(format!(
                    "{what}: row {row} pays {pays} on path {path:?}, its unit margin is {unit}"
                ));
            }
        }
        Ok(())
    }

    /// Sharper than the document asks, since amounts are rounded up to reais: the unit
    /// spread margin covers one unit of any two rows that pair, whether or not
    /// the pair was made.
    fn spreads_cover(&self, pays: &[i64], path: &[i64]) -> Result<(), String> {
        for &w in &self.written {
            for &h in &self.held {
                let [written, held] = [w, h].map(|row| self.account.positions[row].terms());
                let Some(spread) = unit_spread_margin(self.series, &held, &written) else {
                    continue;
                };
                if spread < pays[w] - pays[h] {
                    return Err(format!(
                        "unit spread margin {spread} of written row {w} and held row {h}: \
                         pays {} and brings in {} on path {path:?}",
                        pays[w], pays[h]
                    ));
                }
            }
        }
        Ok(())
    }
}
