//! Calls for instalments, lists and files for them, and what they come to.
//!
//! A call says by itself what it is to answer, wherever that is known from the
//! way the account and the list were made, so that it and the rules check each
//! other.

mod accounts;
mod allowances;
mod apart;
mod blocked;
mod by_chance;
mod counts;
mod example;
mod lines;
mod lists;
mod many_rows;
mod no_positions;
mod readings;
mod whole_reais;

use crate::draft::Draft;
use crate::instalment_cases::{Answer, Call, Case};
use crate::reader::Refusal;
use lists::Lent;

/// Of the numbers drawn.
const SEED: u64 = 20_040_225;

#[derive(Clone, Debug)]
pub struct Instalments {
    pub group: &'static str,
    pub name: String,
    pub case: Case,
    /// Of each call; nothing where it is not known beforehand.
    pub expect: Vec<Option<Answer>>,
}

/// A call, and its answer where that is known.
type Asked = (Call, Option<Answer>);

/// The cases so far, and the group of those to come.
struct Cases {
    list: Vec<Instalments>,
    group: &'static str,
}

impl Cases {
    fn begin(&mut self, group: &'static str) {
        self.group = group;
    }

    fn add(&mut self, name: impl Into<String>, draft: &Draft, lent: Lent, asked: Vec<Asked>) {
        self.add_bytes(name, draft.bytes(), lent, asked);
    }

    fn add_bytes(
        &mut self,
        name: impl Into<String>,
        file: Vec<u8>,
        Lent { room, entries }: Lent,
        asked: Vec<Asked>,
    ) {
        let (calls, expect) = asked.into_iter().unzip();
        let case = Case { room, entries, calls, file };
        self.list.push(Instalments { group: self.group, name: name.into(), case, expect });
    }
}

/// A call that makes so many pairs.
fn made(count: u64, allowance: u64, pairs: u64) -> Asked {
    (Call::Pair { count, allowance }, Some(Ok(pairs)))
}

/// An amount in centavos.
fn amount(count: u64, centavos: u64) -> Asked {
    (Call::Amount { count }, Some(Ok(centavos)))
}

/// A call that takes so many pairs apart.
fn apart(count: u64, k: u64) -> Asked {
    (Call::Apart { count, k }, Some(Ok(count - k)))
}

/// A call that would take more apart than there are.
fn above_count(count: u64, k: u64) -> Asked {
    (Call::Apart { count, k }, Some(Err(Refusal { number: 19, row: 0 })))
}

/// All calls with this count, refused at row 0.
fn refused(count: u64, allowance: u64, number: i64) -> Vec<Asked> {
    refused_at(count, allowance, number, 0)
}

/// The same at any row.
fn refused_at(count: u64, allowance: u64, number: i64, row: usize) -> Vec<Asked> {
    let refusal = Some(Err(Refusal { number, row }));
    all_calls(count, allowance).map(|call| (call, refusal)).to_vec()
}

/// With this count; the allowance is k too.
fn all_calls(count: u64, allowance: u64) -> [Call; 3] {
    [Call::Pair { count, allowance }, Call::Amount { count }, Call::Apart { count, k: allowance }]
}

/// All cases, in a fixed order.
pub fn all_instalments() -> Vec<Instalments> {
    let mut cases = Cases { list: Vec::new(), group: "" };
    for add in [
        example::add,
        allowances::add,
        lines::add_changed,
        lines::add_others,
        counts::add,
        counts::add_with_left_lines,
        lists::add_short,
        readings::add,
        no_positions::add,
        whole_reais::add,
        whole_reais::add_premiums,
        many_rows::add,
        by_chance::add,
        by_chance::add_spoiled,
        apart::add,
        apart::add_above,
        apart::add_order,
        by_chance::add_apart,
        blocked::add,
        by_chance::add_blocked,
    ] {
        add(&mut cases);
    }
    cases.list
}

/// Each case as its length in four little-endian bytes, then its bytes.
pub fn cases_bytes(cases: &[Instalments]) -> Vec<u8> {
    let mut bytes = Vec::new();
    for Instalments { case, .. } in cases {
        let case = case.bytes();
        bytes.extend((case.len() as u32).to_le_bytes());
        bytes.extend(case);
    }
    bytes
}

/// What is printed for all of them.
pub fn answers_text(cases: &[Instalments]) -> String {
    cases.iter().map(|case| case.case.output()).collect()
}
