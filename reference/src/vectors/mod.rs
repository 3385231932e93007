//! Test files and their expected output.
//!
//! Every case says by itself whether its file is to be refused, and with which
//! number and row. That expectation comes from the way the file was made and
//! not from the reader, so that the two check each other.

mod amounts;
mod blocked;
mod blocked_choices;
mod blocked_faults;
mod blocked_lines;
mod by_chance;
mod checked_values;
mod cover_sheets;
mod equalities;
mod extremes;
mod kinds_and_flags;
mod knock_out_spreads;
mod knocked_out;
mod limited_spreads;
mod many_rows;
mod no_positions;
mod other_spreads;
mod position_faults;
mod row_faults;
pub(crate) mod rows;
mod ties;
mod trailer_faults;
mod two_faults;
mod whole_reais;

pub(crate) use two_faults::put_fault;

use crate::draft::{Draft, PositionDraft, CALL, PUT};
use crate::output::margin_output;
use rows::{mirrored, one_series};

/// Of the numbers drawn.
const SEED: u64 = 812_003;

#[derive(Clone, Copy, Debug, PartialEq, Eq)]
pub enum Expect {
    Accepted,
    Refused(i64, usize),
    /// Made by chance: nothing is known beforehand.
    Open,
}

#[derive(Clone, Debug)]
pub struct Case {
    pub group: &'static str,
    pub name: String,
    pub bytes: Vec<u8>,
    pub expect: Expect,
}

/// The cases so far, and the group of those to come.
struct Cases {
    list: Vec<Case>,
    group: &'static str,
}

impl Cases {
    fn begin(&mut self, group: &'static str) {
        self.group = group;
    }

    fn add(&mut self, name: impl Into<String>, bytes: Vec<u8>, expect: Expect) {
        self.list.push(Case { group: self.group, name: name.into(), bytes, expect });
    }

    fn accept(&mut self, name: impl Into<String>, draft: Draft) {
        self.add(name, draft.bytes(), Expect::Accepted);
    }

    /// An account of calls, and the same mirrored to puts.
    fn accept_both(&mut self, name: impl Into<String>, rows: Vec<PositionDraft>) {
        let name = name.into();
        let mirrored = rows.iter().map(mirrored).collect();
        self.accept(format!("{name}, calls"), one_series(CALL, rows));
        self.accept(format!("{name}, mirrored to puts"), one_series(PUT, mirrored));
    }

    fn refuse(&mut self, name: impl Into<String>, bytes: Vec<u8>, number: i64, row: usize) {
        self.add(name, bytes, Expect::Refused(number, row));
    }
}

/// All cases, in a fixed order.
pub fn all_cases() -> Vec<Case> {
    let mut cases = Cases { list: Vec::new(), group: "" };
    for add in [
        checked_values::add,
        kinds_and_flags::add,
        equalities::add,
        knock_out_spreads::add,
        knock_out_spreads::add_by_rebate,
        other_spreads::add,
        limited_spreads::add,
        ties::add,
        amounts::add_rounding,
        amounts::add_premiums,
        cover_sheets::add,
        many_rows::add,
        extremes::add,
        no_positions::add,
        trailer_faults::add,
        row_faults::add,
        two_faults::add,
        by_chance::add_accounts,
        by_chance::add_limited_accounts,
        by_chance::add_changed_bytes,
        knocked_out::add,
        knocked_out::add_faults,
        by_chance::add_knocked_out_accounts,
        whole_reais::add,
        by_chance::add_small_amounts,
        blocked::add,
        blocked_choices::add,
        blocked::add_flags_and_series,
        blocked_lines::add,
        blocked_faults::add,
        by_chance::add_blocked_accounts,
        by_chance::add_changed_blocked,
    ] {
        add(&mut cases);
    }
    cases.list
}

/// Each account as its length in four little-endian bytes, then its bytes.
pub fn stdin_bytes(cases: &[Case]) -> Vec<u8> {
    let mut bytes = Vec::new();
    for case in cases {
        bytes.extend((case.bytes.len() as u32).to_le_bytes());
        bytes.extend(&case.bytes);
    }
    bytes
}

/// Each account's printed output followed by an empty line.
pub fn stdout_text(cases: &[Case]) -> String {
    let mut text = String::new();
    for case in cases {
        text += &margin_output(&case.bytes);
        text += "\n";
    }
    text
}
