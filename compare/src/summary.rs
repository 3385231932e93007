//! What was compared.

use std::collections::BTreeMap;
use std::fmt;

use reference::account::Account;
use reference::instalment_cases::Call;
use reference::reader::Refusal;

use crate::comparison::Answer;
use crate::files::{Family, File};

/// How often each name came up.
#[derive(Clone, Debug, Default)]
pub struct Tally(BTreeMap<&'static str, u64>);

#[derive(Clone, Debug, Default)]
pub struct Summary {
    pub files: u64,
    families: Tally,
    random: Tally,
    structured: Tally,
    damage: Tally,
    faults: [u64; 5],
    /// By number of refusal, 0 where the file was accepted.
    outcomes: [u64; 12],
    /// Of the accepted files, those without positions, and those with blocked contracts.
    without_positions: u64,
    with_blocked: u64,
    margin_calls: Tally,
    amount_calls: Tally,
    premium_calls: u64,
    factors_calls: Tally,
    day_calls: Tally,
    pair_calls: Tally,
    pairs: u64,
    so_far_calls: Tally,
    apart_calls: Tally,
    taken_apart: u64,
    load_calls: Tally,
    loaded_bytes: u64,
    lines: u64,
    entries_kept: u64,
}

impl Tally {
    pub fn add(&mut self, name: &'static str) {
        *self.0.entry(name).or_default() += 1;
    }

    pub fn total(&self) -> u64 {
        self.0.values().sum()
    }
}

impl Summary {
    pub fn add_file(&mut self, file: &File, reading: &Result<Account, Refusal>) {
        self.files += 1;
        self.families.add(file.family.name());
        let outcome = reading.as_ref().map_or_else(|refusal| refusal.number as usize, |_| 0);
        self.outcomes[outcome] += 1;
        if let Ok(Account { positions, .. }) = reading {
            self.without_positions += u64::from(positions.is_empty());
            self.with_blocked += u64::from(positions.iter().any(|p| p.blocked > 0));
        }
        let kinds = match file.family {
            Family::Random => &mut self.random,
            Family::Structured => &mut self.structured,
            Family::Damaged => {
                self.faults[file.kinds.len()] += 1;
                &mut self.damage
            }
        };
        for kind in &file.kinds {
            kinds.add(kind);
        }
    }

    /// An answer that both implementations gave.
    pub fn add_answer(&mut self, answer: &Answer, purpose: &'static str) {
        match answer {
            Answer::Amount(_) => self.amount_calls.add(purpose),
            Answer::Premiums(_) => self.premium_calls += 1,
            Answer::Factors(_) => self.factors_calls.add(purpose),
            Answer::Day(..) => self.day_calls.add(purpose),
            Answer::Call(Call::Pair { .. }, answer, _) => {
                self.pair_calls.add(purpose);
                self.pairs += answer.value;
            }
            Answer::Call(Call::Amount { .. }, ..) => self.so_far_calls.add(purpose),
            Answer::Call(Call::Apart { k, .. }, answer, _) => {
                self.apart_calls.add(purpose);
                self.taken_apart += if answer.refusal == 0 { *k } else { 0 };
            }
            Answer::Load(answer, _) => {
                self.load_calls.add(purpose);
                self.loaded_bytes += answer.value;
            }
            Answer::Margin(margin, entries) => {
                self.margin_calls.add(purpose);
                self.lines += margin.lines;
                self.entries_kept += entries.len() as u64 - margin.lines;
            }
        }
    }

    fn write_calls_on_lists(&self, out: &mut fmt::Formatter) -> fmt::Result {
        let (calls, pairs) = (self.pair_calls.total(), self.pairs);
        writeln!(out, "serpentgleam_pair: {calls} calls, {pairs} pairs: {}", self.pair_calls)?;
        let calls = self.so_far_calls.total();
        writeln!(out, "serpentgleam_amount_so_far: {calls} calls: {}", self.so_far_calls)?;
        let (calls, pairs) = (self.apart_calls.total(), self.taken_apart);
        writeln!(out, "serpentgleam_take_apart: {calls} calls, {pairs} pairs: {}", self.apart_calls)
    }
}

impl fmt::Display for Tally {
    fn fmt(&self, out: &mut fmt::Formatter) -> fmt::Result {
        let parts = self.0.iter().map(|(name, count)| format!("{name}: {count}"));
        write!(out, "{}", parts.collect::<Vec<_>>().join("; "))
    }
}

impl fmt::Display for Summary {
    fn fmt(&self, out: &mut fmt::Formatter) -> fmt::Result {
        writeln!(out, "families: {}", self.families)?;
        writeln!(out, "random files: {}", self.random)?;
        writeln!(out, "structured files: {}", self.structured)?;
        writeln!(out, "faults put in: {}", self.damage)?;
        let [_, one, two, three, four] = self.faults;
        writeln!(out, "faults in a file: 1: {one}; 2: {two}; 3: {three}; 4: {four}")?;
        write!(out, "accepted: {}", self.outcomes[0])?;
        let (without, with) = (self.without_positions, self.with_blocked);
        write!(out, ", without positions: {without}, with blocked contracts: {with}; refused")?;
        // Number 3 is given for nothing.
        for number in [1, 2, 4, 5, 6, 7, 8, 9, 10, 11] {
            let count = self.outcomes[number];
            write!(out, " {number}: {count}{}", if number < 11 { ";" } else { "\n" })?;
        }
        let calls = self.margin_calls.total();
        writeln!(out, "serpentgleam_margin: {calls} calls: {}", self.margin_calls)?;
        writeln!(
            out,
            "lines compared {}; other entries compared {}",
            self.lines, self.entries_kept
        )?;
        let calls = self.amount_calls.total();
        writeln!(out, "serpentgleam_position_amount: {calls} calls: {}", self.amount_calls)?;
        writeln!(out, "serpentgleam_premiums: {} calls", self.premium_calls)?;
        let calls = self.factors_calls.total();
        writeln!(out, "serpentgleam_factors: {calls} calls: {}", self.factors_calls)?;
        let calls = self.day_calls.total();
        writeln!(out, "serpentgleam_day: {calls} calls: {}", self.day_calls)?;
        self.write_calls_on_lists(out)?;
        let (calls, bytes) = (self.load_calls.total(), self.loaded_bytes);
        writeln!(out, "serpentgleam_load: {calls} calls, {bytes} bytes: {}", self.load_calls)?;
        write!(out, "{} files, 0 differences", self.files)
    }
}
