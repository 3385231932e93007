//! The calls for instalments do what they were made for.

use std::collections::BTreeSet;

use reference::account::Account;
use reference::instalment_cases::{Answer, Call, Case};
use reference::instalment_vectors::{all_instalments, answers_text, cases_bytes, Instalments};
use reference::lines::{margin, pair_entry, Entry};
use reference::output::outputs_of;
use reference::pairing::Pair;
use reference::reader::{read_account, Refusal};

/// A call as it was answered.
struct Answered<'a> {
    call: Call,
    answer: Answer,
    room: u64,
    /// All pairs of the whole margin; none where the file is refused.
    pairs: &'a [Pair],
    /// The entries before the call and after it.
    before: Vec<Entry>,
    after: Vec<Entry>,
}

fn each_call(mut look: impl FnMut(Answered)) {
    for Instalments { case, .. } in all_instalments() {
        let account = read_account(&case.file);
        let pairs = account.map_or_else(|_| Vec::new(), |account| margin(&account).pairs);
        let mut before = case.entries.clone();
        for (&call, (answer, after)) in case.calls.iter().zip(case.answers()) {
            let (room, entries) = (case.room as u64, after.clone());
            look(Answered { call, answer, room, pairs: &pairs, before, after });
            before = entries;
        }
    }
}

#[test]
fn every_call_is_answered_as_it_was_made() {
    let mut known = 0;
    for instalments in all_instalments() {
        let answers = instalments.case.answers();
        assert_eq!(answers.len(), instalments.expect.len());
        for (number, (expected, (found, _))) in instalments.expect.iter().zip(answers).enumerate() {
            let name = format!("{}: {}, call {number}", instalments.group, instalments.name);
            assert!(expected.is_none_or(|expected| expected == found), "{name}: {found:?}");
            known += usize::from(expected.is_some());
        }
    }
    assert!(known > 2_000, "{known} answers known beforehand");
}

/// What each call leaves in the entries, from the pairs of the whole margin.
#[test]
fn every_entry_after_every_call() {
    each_call(|Answered { call, answer, pairs, before, after, .. }| {
        let written = match (call, answer) {
            (Call::Pair { count, .. }, Ok(made)) => count..count + made,
            (Call::Apart { count, .. }, Ok(left)) => left..count,
            _ => 0..0,
        };
        for at in 0..after.len() {
            let expected = match call {
                _ if !written.contains(&(at as u64)) => before[at],
                Call::Apart { .. } => [0; 5],
                _ => pair_entry(&pairs[at]),
            };
            assert_eq!(after[at], expected, "{call:?}, entry {at}");
        }
    });
}

fn sort(call: Call) -> &'static str {
    match call {
        Call::Pair { .. } => "pair",
        Call::Amount { .. } => "amount",
        Call::Apart { .. } => "apart",
    }
}

/// Each refusal of each call, those of a row at row 0 and at a later one.
#[test]
fn every_refusal() {
    let mut found = BTreeSet::new();
    each_call(|Answered { call, answer, .. }| {
        if let Err(Refusal { number, row }) = answer {
            found.insert((sort(call), number, row > 0));
        }
    });
    for sort in ["pair", "amount", "apart"] {
        for number in [1, 2, 4, 5, 6, 7, 8, 9, 10, 11, 12, 18] {
            assert!(found.contains(&(sort, number, false)), "{sort} {number}");
            assert!(!(5..=11).contains(&number) || found.contains(&(sort, number, true)));
        }
    }
    assert!(found.contains(&("apart", 19, false)));
    assert_eq!(found.len(), 3 * (12 + 7) + 1);
}

/// Counts refused with 18: beside the pairs, beyond the list, and numbers whose
/// low bits would be accepted.
#[test]
fn counts_that_are_refused() {
    let mut beyond = BTreeSet::new();
    each_call(|Answered { call, answer, room, pairs, .. }| {
        if answer != Err(Refusal { number: 18, row: 0 }) {
            return;
        }
        let (count, pairs) = (call.count(), pairs.len() as u64);
        if count > pairs {
            let low_half = count % (1 << 32) <= pairs;
            beyond.insert((count - pairs == 1, count > room, low_half));
        } else {
            beyond.insert((false, false, false));
        }
    });
    for sort in [
        // One of the first lines is another.
        (false, false, false),
        // One above the pairs, within the list and beyond it.
        (true, false, false),
        (true, true, false),
        // Far above them, without and with low bits that would be accepted.
        (false, true, false),
        (false, true, true),
    ] {
        assert!(beyond.contains(&sort), "{sort:?}");
    }
}

/// Allowances below, at and above the rest, 0, and such whose low bits alone
/// would make fewer.
#[test]
fn allowances_of_every_sort() {
    let mut found = BTreeSet::new();
    each_call(|Answered { call, answer, pairs, .. }| {
        let (Call::Pair { count, allowance }, Ok(_)) = (call, answer) else { return };
        let rest = pairs.len() as u64 - count;
        let cut = allowance >= 1 << 32 && allowance % (1 << 32) < rest;
        found.insert((count > 0, allowance == 0, allowance.cmp(&rest), cut));
    });
    for begun in [false, true] {
        for (zero, order, cut) in [
            (true, -1, false),
            (true, 0, false),
            (false, -1, false),
            (false, 0, false),
            (false, 1, false),
            (false, 1, true),
        ] {
            let sort = (begun, zero, order.cmp(&0), cut);
            assert!(found.contains(&sort), "{sort:?}");
        }
    }
}

/// k below, at and above the count, 0, and such whose low bits alone would be
/// accepted; above it with each refusal that comes before 19.
#[test]
fn ks_of_every_sort() {
    let mut found = BTreeSet::new();
    each_call(|Answered { call, answer, .. }| {
        let Call::Apart { count, k } = call else { return };
        let refused = answer.map_or_else(|refusal| refusal.number, |_| 0);
        let cut = k >= 1 << 32 && k % (1 << 32) <= count;
        found.insert((refused, k == 0, k.cmp(&count), cut));
    });
    for (refused, zero, order, cut) in [
        (0, true, -1, false),
        (0, true, 0, false),
        (0, false, -1, false),
        (0, false, 0, false),
        (19, false, 1, false),
        (19, false, 1, true),
        (18, false, 1, false),
        (18, false, 0, false),
        (18, false, -1, false),
        (12, false, 1, false),
        (8, false, 1, false),
    ] {
        let sort = (refused, zero, order.cmp(&0), cut);
        assert!(found.contains(&sort), "{sort:?}");
    }
}

/// Accounts from no rows to 256, with up to 255 pairs, and amounts that a pair
/// raises.
#[test]
fn accounts_of_every_size() {
    let mut accounts: Vec<Account> = Vec::new();
    for instalments in all_instalments() {
        accounts.extend(read_account(&instalments.case.file));
    }
    let rows: BTreeSet<usize> = accounts.iter().map(|a| a.positions.len()).collect();
    assert!((0..=9).chain([60, 100, 256]).all(|count| rows.contains(&count)), "{rows:?}");
    let pairs: BTreeSet<usize> = accounts.iter().map(|a| margin(a).pairs.len()).collect();
    assert!((0..=7).chain([128, 255]).all(|count| pairs.contains(&count)), "{pairs:?}");

    let (mut amount, mut raised) = (u64::MAX, 0);
    each_call(|Answered { call, answer, .. }| {
        if let (Call::Amount { count }, Ok(found)) = (call, answer) {
            raised += usize::from(count > 0 && found > amount);
            amount = found;
        }
    });
    assert!(raised > 5, "{raised} raised");
}

/// Behind the count, where pairs are taken apart: another pair line, a left
/// line, zeros, and what is none of them.
#[test]
fn content_behind_the_pairs_taken_apart() {
    let mut found = BTreeSet::new();
    each_call(|Answered { call, answer, before, .. }| {
        let (Call::Apart { count, k: 1.. }, Ok(_)) = (call, answer) else { return };
        found.insert(before[count as usize][0].min(3));
    });
    assert_eq!(found, (0..=3).collect());
}

/// Entries handed over behind the lines, and entries behind those.
#[test]
fn marks_stand_behind_the_lines() {
    for instalments in all_instalments() {
        assert!(instalments.case.entries.len() > instalments.case.room, "{}", instalments.name);
    }
}

#[test]
fn the_two_files_belong_together() {
    let cases = all_instalments();
    for instalments in &cases {
        assert_eq!(Case::of_bytes(&instalments.case.bytes()), instalments.case);
    }
    let output = outputs_of(&cases_bytes(&cases), |case| Case::of_bytes(case).output());
    assert!(output == answers_text(&cases));
}

/// The files that stand in the repository are those the generator makes.
#[test]
fn the_stored_files_are_up_to_date() {
    let stored = |name: &str| {
        let folder = concat!(env!("CARGO_MANIFEST_DIR"), "/../tests/instalments/");
        std::fs::read(folder.to_string() + name).expect(name)
    };
    let cases = all_instalments();
    assert_eq!(cases.len(), 735);
    assert!(stored("cases") == cases_bytes(&cases));
    assert!(stored("answers") == answers_text(&cases).into_bytes());
}
