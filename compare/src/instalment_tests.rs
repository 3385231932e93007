//! The lists, counts and allowances are what they are meant to be, and changed answers to them are found there.

use std::cell::RefCell;
use std::collections::BTreeMap;

use reference::day::Day;
use reference::instalment_cases::Call;
use reference::instalments::HalfPaired;
use reference::lines::pair_entry;
use reference::reader::read_account;

use crate::changes::{Change, Changed, CHANGES};
use crate::comparison::{compare_file, Difference};
use crate::files::file;
use crate::implementation::{Answer, Factors, Implementation, Line, Margin, Reference};
use crate::lending::Lending;
use crate::list::List;
use crate::questions::Question;
use crate::summary::Summary;

const SEED: u64 = 9;

/// The reference, which counts the sorts of what it is asked.
#[derive(Default)]
struct Counting(RefCell<BTreeMap<&'static str, usize>>);

impl Counting {
    fn count(&self, sort: Option<&'static str>) {
        if let Some(sort) = sort {
            *self.0.borrow_mut().entry(sort).or_default() += 1;
        }
    }

    fn look_at(&self, file: &[u8], list: &[Line], call: Call) {
        let Ok(account) = read_account(file) else {
            return self.count(Some("a refused file"));
        };
        let needed = 2 * account.positions.len();
        let mut half = HalfPaired::begun(account);
        let pairs = half.make(u64::MAX);
        let lines: Vec<Line> = half.pairs.iter().map(pair_entry).collect();
        if let Call::Apart { count, k } = call {
            return self.count(sort_of_apart(&lines, list, needed, (count, k)));
        }
        let count = call.count();
        if list.len() < needed {
            return self.count(Some(if count == 0 { "short" } else { "short, with a count" }));
        }
        if count > pairs {
            return self.count(sort_of_count(count, pairs, list));
        }
        let taken = lines.iter().zip(list).take(count as usize);
        let wrong: Vec<usize> =
            (0..).zip(taken).filter(|(_, (l, e))| l != e).map(|w| w.0).collect();
        match wrong[..] {
            [] => self.count(sort_of_allowance(call, pairs - count)),
            [at] => self.count(sort_of_line(&lines[at], &list[at], at)),
            _ => self.count(Some("more than one other line")),
        }
    }
}

fn sort_of_count(count: u64, pairs: u64, list: &[Line]) -> Option<&'static str> {
    let there = list.get(pairs as usize).map(|entry| entry[0]);
    Some(match (count - pairs, there) {
        (1, Some(2)) => "a left line counted",
        (1, Some(1)) => "a pair twice",
        (1, Some(_)) => "one above the pairs",
        _ if count >= 1 << 32 && count % (1 << 32) <= pairs => "low bits of a count",
        _ if count > list.len() as u64 => "above the list",
        _ => return None,
    })
}

fn sort_of_line(line: &Line, entry: &Line, at: usize) -> Option<&'static str> {
    let wrong: Vec<usize> = (0..5).filter(|place| line[*place] != entry[*place]).collect();
    match wrong[..] {
        [0] => Some("another kind"),
        [1] => Some("another written row"),
        [2] => Some("another held row"),
        [3] => Some("another quantity"),
        [4] if at > 0 => Some("another amount after the first line"),
        [4] => Some("another amount"),
        _ => None,
    }
}

/// Given the lines of all pairs.
fn sort_of_apart(
    lines: &[Line],
    list: &[Line],
    needed: usize,
    (count, k): (u64, u64),
) -> Option<&'static str> {
    let (pairs, above) = (lines.len() as u64, k > count);
    if list.len() < needed {
        return Some(if above { "short, k above" } else { "short, taken apart" });
    }
    if count > pairs {
        return Some(if above { "count and k above" } else { "count above, taken apart" });
    }
    let (first, left) = (count as usize, count.saturating_sub(k) as usize);
    let wrong = (0..first).find(|at| lines[*at] != list[*at]);
    Some(match (wrong, k) {
        (Some(_), _) if above => "another line, k above",
        (Some(at), _) if at >= left => "another line to be removed",
        (Some(_), 1..) => "another line that stays",
        (Some(_), 0) => "another line, none taken apart",
        _ if k >= 1 << 32 && k % (1 << 32) <= count => "low bits of k",
        _ if k == count.saturating_add(1) => "one above the count",
        _ if above => "k above the count",
        (None, 0) if count > 0 => "none of the pairs",
        (None, 1..) if k == count && count < pairs => "all that are counted",
        (None, 1..) if k == count => "all pairs",
        (None, 1..) if count < pairs => "some, with pairs behind them",
        (None, 1..) => "some pairs",
        _ => return None,
    })
}

fn sort_of_allowance(call: Call, rest: u64) -> Option<&'static str> {
    let Call::Pair { count, allowance } = call else {
        return Some("an amount");
    };
    Some(match allowance {
        0 if rest > 0 => "nothing allowed, with pairs to make",
        1.. if allowance < rest && count > 0 => "some of the rest",
        1.. if allowance == rest => "exactly the rest",
        _ if allowance >= 1 << 32 && allowance % (1 << 32) < rest => "low bits of an allowance",
        _ => return None,
    })
}

impl Implementation for Counting {
    fn margin(&self, file: &[u8], entries: &mut [Line], room: usize) -> Margin {
        Reference.margin(file, entries, room)
    }

    fn position_amount(&self, file: &[u8], row: u64) -> i64 {
        Reference.position_amount(file, row)
    }

    fn premiums(&self, file: &[u8]) -> Answer {
        Reference.premiums(file)
    }

    fn factors(&self, code: u64, days: u64) -> Factors {
        Reference.factors(code, days)
    }

    fn day(&self, file: &mut [u8], day: &Day) -> Answer {
        Reference.day(file, day)
    }

    fn call(&self, file: &[u8], list: &mut List, call: Call) -> Answer {
        self.look_at(file, list.lines(), call);
        Reference.call(file, list, call)
    }

    fn load(&self, seed: u64, p: u64, buffer: &mut [u8]) -> Answer {
        Reference.load(seed, p, buffer)
    }
}

/// Compares the reference with the other implementation on the first files.
fn compared(other: &dyn Implementation, count: u64) -> Result<Summary, Box<Difference>> {
    let mut lending = Lending::new();
    let mut summary = Summary::default();
    for number in 0..count {
        compare_file(&file(SEED, number), &Reference, other, &mut lending, &mut summary)?;
    }
    Ok(summary)
}

#[test]
fn calls_are_various() {
    let counting = Counting::default();
    let summary = compared(&counting, 6_000).expect("no difference").to_string();
    assert!(summary.contains("\nserpentgleam_pair: "));
    assert!(summary.contains("\nserpentgleam_amount_so_far: "));
    assert!(summary.contains("\nserpentgleam_take_apart: "));
    let found = counting.0.into_inner();
    assert_eq!(found.len(), 20 + 16, "{found:#?}");
    assert!(found.values().all(|count| *count >= 10), "{found:#?}");
}

/// Each change of instalments is found by a call on a list, and no other; each of taking apart by such a call.
#[test]
fn changes_are_found_by_their_calls() {
    let at = |change: Change| CHANGES.iter().position(|known| known.1 == change).expect("known");
    let of_loads = at(Change::LoadSeedCut)..at(Change::FileWritten);
    let of_instalments = at(Change::PairAll)..of_loads.start;
    let of_apart = at(Change::ApartAll)..of_loads.start;
    for (number, (name, change)) in CHANGES.into_iter().enumerate() {
        // Reading outside ends the program, and factors and loads are not asked for here.
        let others = [Change::Fa, Change::Fb, Change::FaOfOneDay, Change::Day1801, Change::CodeCut];
        let more = [Change::DaysCut, Change::FactorsOnRefusal, Change::ReadingOutside];
        if others.contains(&change) || more.contains(&change) || of_loads.contains(&number) {
            continue;
        }
        let difference = compared(&Changed { of: &Reference, change }, 3_000).expect_err(name);
        let by_call = match *difference {
            Difference::OnList { question: Question::Instalment { call, .. }, .. } => Some(call),
            _ => None,
        };
        assert_eq!(by_call.is_some(), of_instalments.contains(&number), "{name}");
        let by_apart = matches!(by_call, Some(Call::Apart { .. }));
        assert_eq!(by_apart, of_apart.contains(&number), "{name}");
    }
}
