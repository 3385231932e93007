//! Files and questions for blocked contracts (document 02 [9]) are what they are meant to be.

use std::collections::BTreeMap;

use reference::account::{Account, Side};
use reference::lines::margin;
use reference::reader::{read_account, Refusal};

use crate::changed_blocked::file_read;
use crate::changes::Change;
use crate::files::{file, Family, File};
use crate::questions::{questions, Question};

const SEED: u64 = 11;

fn files_of(family: Family, count: u64) -> impl Iterator<Item = File> {
    (0..3 * count).map(|number| file(SEED, number)).filter(move |file| file.family == family)
}

/// About half of the accounts have blocked contracts; of their held rows none, one, all but one and all.
#[test]
fn structured_files_have_blocked_contracts() {
    let (mut with, mut all, mut sorts) = (0, 0, BTreeMap::new());
    for file in files_of(Family::Structured, 3_000) {
        let account = read_account(&file.bytes).expect("accepted");
        all += 1;
        with += usize::from(account.positions.iter().any(|p| p.blocked > 0));
        for p in account.positions.iter().filter(|p| p.side == Side::Held) {
            let sort = match (p.blocked, p.free()) {
                (0, _) => "none",
                (_, 0) => "all",
                (1, _) => "one",
                (_, 1) => "all but one",
                _ => "others",
            };
            *sorts.entry(sort).or_insert(0) += 1;
        }
    }
    assert!(3 * with > all && 3 * with < 2 * all, "{with} of {all}");
    assert_eq!(sorts.len(), 5);
    assert!(sorts.values().all(|count| *count > 300), "{sorts:?}");
}

/// What became of a held row with blocked contracts.
fn fate(account: &Account, row: usize, taken: i64) -> &'static str {
    let position = &account.positions[row];
    match (taken, position.free() - taken) {
        (0, 0) => "wholly blocked",
        (0, _) => "in no pair",
        (_, 0) => "spent for pairing",
        _ => "used in part",
    }
}

/// Rows with blocked contracts come to every end, and some accounts have more lines than rows.
#[test]
fn rows_with_blocked_contracts_come_to_every_end() {
    let (mut fates, mut many_lines, mut most_lines) = (BTreeMap::new(), 0, 0);
    for file in files_of(Family::Structured, 3_000) {
        let account = read_account(&file.bytes).expect("accepted");
        let margin = margin(&account);
        let (p, lines) = (account.positions.len(), margin.pairs.len() + margin.left.len());
        many_lines += usize::from(lines > p);
        most_lines += usize::from(p > 1 && lines + 1 == 2 * p);
        for row in (0..p).filter(|row| account.positions[*row].blocked > 0) {
            let own = margin.pairs.iter().filter(|pair| pair.held == row);
            let taken = own.map(|pair| pair.quantity).sum();
            *fates.entry(fate(&account, row, taken)).or_insert(0) += 1;
        }
    }
    assert_eq!(fates.len(), 4);
    assert!(fates.values().all(|count| *count > 50), "{fates:?}");
    assert!(many_lines > 100 && most_lines > 0, "{many_lines} {most_lines}");
}

/// Refused for the number alone: above Q in a held row, and anything in a written one.
#[test]
fn random_and_damaged_files_are_refused_for_the_number() {
    for family in [Family::Random, Family::Damaged] {
        let mut found = BTreeMap::new();
        for file in files_of(family, 20_000) {
            let Err(Refusal { number, .. }) = read_account(&file.bytes) else { continue };
            for (change, own) in [(Change::BlockedAboveQ, 8), (Change::BlockedWritten, 7)] {
                let read = file_read(change, &file.bytes);
                if number == own && read.is_some_and(|read| read_account(&read).is_ok()) {
                    *found.entry(number).or_insert(0) += 1;
                }
            }
        }
        assert_eq!(found.len(), 2, "{family:?}");
        assert!(found.values().all(|count| *count > 20), "{family:?}: {found:?}");
    }
}

/// Lists of 2p entries, of 2p - 1, of p, of fewer and of more, now and then of 512.
#[test]
fn lists_about_twice_the_rows() {
    for p in [1, 2, 5, 12, 13, 100, 256] {
        let mut rooms = BTreeMap::new();
        for seed in 0..400 {
            for (question, purpose) in questions(seed, Some(p)) {
                if let Question::Margin { room } = question {
                    rooms.entry(purpose).or_insert_with(Vec::new).push(room);
                }
            }
        }
        assert_eq!(rooms.len(), 6);
        let of = |purpose: &str| rooms[purpose].iter().copied();
        assert!(of("room 2p").all(|room| room == 2 * p));
        assert!(of("room 2p - 1").all(|room| room == 2 * p - 1));
        assert!(of("room p").all(|room| room == p));
        assert!(of("room below 2p").all(|room| room > 0 && room < 2 * p));
        assert!(of("room above 2p").all(|room| room > 2 * p));
        assert!(of("room above 2p").any(|room| room >= 512));
        assert!(of("no room").all(|room| room == 0));
    }
}
