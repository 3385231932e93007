//! The files are what they are meant to be, and the comparison finds changed answers.

use std::collections::{BTreeMap, BTreeSet};

use reference::account::{Account, Barrier, Limiter, OptionType, Side};
use reference::day::{apply_day, Day};
use reference::lines::margin;
use reference::position::premium_amount;
use reference::reader::{distance, read_account};

use crate::changed_amounts::{exact_of_line, Exact};
use crate::changes::{Change, Changed, CHANGES};
use crate::codes_and_days::{asked_once, drawn, expectation};
use crate::comparison::{compare_factors, compare_file, compare_load, Difference};
use crate::days::days;
use crate::files::{file, Family, File, LONGEST_FILE};
use crate::implementation::{Implementation, Line, Reference};
use crate::lending::Lending;
use crate::loads;
use crate::questions::{questions, Question};
use crate::summary::Summary;

const SEED: u64 = 7;

fn files_of(family: Family, count: u64) -> impl Iterator<Item = File> {
    let first = [Family::Random, Family::Structured, Family::Damaged]
        .iter()
        .position(|known| *known == family)
        .unwrap() as u64;
    (0..count).map(move |turn| file(SEED, 3 * turn + first))
}

/// 0 for accepted files, else the number of the refusal.
fn outcome(file: &File) -> i64 {
    read_account(&file.bytes).map_or_else(|refusal| refusal.number, |_| 0)
}

fn outcomes(family: Family, count: u64) -> BTreeSet<i64> {
    files_of(family, count).map(|file| outcome(&file)).collect()
}

/// Number 3 is given for nothing.
fn every_outcome() -> BTreeSet<i64> {
    (0..=11).filter(|number| *number != 3).collect()
}

/// Does the trailer, if there is one, say p = 0?
fn says_no_positions(file: &File) -> bool {
    file.bytes.len() >= 12 && file.bytes[file.bytes.len() - 10..][..2] == [0, 0]
}

fn kinds(family: Family, count: u64) -> BTreeSet<&'static str> {
    files_of(family, count).flat_map(|file| file.kinds).collect()
}

#[test]
fn the_seed_fixes_the_files() {
    let forwards: Vec<File> = (0..600).map(|number| file(SEED, number)).collect();
    let mut backwards: Vec<File> = (0..600).rev().map(|number| file(SEED, number)).collect();
    backwards.reverse();
    assert!(forwards == backwards);
    let other_seed = (0..600).filter(|&n| file(SEED + 1, n).bytes == forwards[n as usize].bytes);
    assert!(other_seed.count() < 20);
}

#[test]
fn the_families_come_in_turn() {
    for turn in 0..50 {
        assert_eq!(file(SEED, 3 * turn).family, Family::Random);
        assert_eq!(file(SEED, 3 * turn + 1).family, Family::Structured);
        assert_eq!(file(SEED, 3 * turn + 2).family, Family::Damaged);
    }
}

#[test]
fn random_files_reach_the_rows() {
    let count = 30_000;
    assert_eq!(outcomes(Family::Random, count), every_outcome());
    assert_eq!(kinds(Family::Random, count).len(), 7);
    let lengths: BTreeSet<usize> = files_of(Family::Random, count).map(|f| f.bytes.len()).collect();
    for length in (0..=40).chain(65_535..=65_538) {
        assert!(lengths.contains(&length), "{length}");
    }
}

#[test]
fn structured_files_are_accepted_and_various() {
    let files: Vec<File> = files_of(Family::Structured, 20_000).collect();
    let read = |file: &File| read_account(&file.bytes).expect("accepted");
    let accounts: Vec<Account> = files.iter().map(read).collect();
    let some = |what: &dyn Fn(&Account) -> bool| accounts.iter().any(what);
    assert_eq!(kinds(Family::Structured, 20_000).len(), 15);
    assert!(some(&|a| a.series.len() == 32 && a.positions.len() == 256));
    assert!(some(&|a| a.series.len() == 1 && a.positions.len() == 256));
    assert!(some(&|a| a.series.len() == 1 && a.positions.len() == 1));
    assert!(some(&|a| a.series.iter().any(|s| s.fb > 1_000_000)));
    for quantity in [1, 100_000] {
        assert!(some(&|a| a.positions.iter().any(|p| p.quantity == quantity)));
    }
    for pv in [1, 10_000_000] {
        assert!(some(&|a| a.series.iter().any(|s| s.pv == pv)));
    }
    assert!(some(&|a| a.positions.len() < 50 && margin(a).pairs.len() > 10));
    assert!(files.iter().any(|f| f.bytes.len() == LONGEST_FILE));
    let with_cover = files.iter().zip(&accounts).filter(|(f, a)| has_cover(f, a)).count();
    assert!(with_cover > files.len() / 3 && with_cover < files.len());
}

fn has_cover(file: &File, account: &Account) -> bool {
    file.bytes.len() > distance(account.series.len(), account.positions.len())
}

/// Held and written, of both kinds, on either side of PV.
#[test]
fn some_knock_outs_were_touched() {
    let mut found = BTreeSet::new();
    for file in files_of(Family::Structured, 3_000) {
        let account = read_account(&file.bytes).expect("accepted");
        for position in account.positions.iter().filter(|p| p.already_knocked_out) {
            let price = position.barrier.price().expect("a barrier");
            let up = matches!(position.barrier, Barrier::UpAndOut(_));
            let pv = account.series[position.series].pv;
            found.insert((position.side == Side::Held, up, price.cmp(&pv)));
        }
    }
    assert_eq!(found.len(), 2 * 2 * 3);
}

/// How the limiters of a pair stand to each other.
fn limiters(option_type: OptionType, held: Limiter, written: Limiter) -> &'static str {
    match (held, written) {
        (Limiter::Absent, Limiter::Absent) => "none",
        (Limiter::Absent, Limiter::At(_)) => "written row alone",
        (Limiter::At(_), Limiter::Absent) => "held row alone",
        (Limiter::At(h), Limiter::At(w)) => match (option_type, h - w) {
            (_, 0) => "equal",
            (OptionType::Call, 1) | (OptionType::Put, -1) => "held one farther",
            (OptionType::Call, 2..) | (OptionType::Put, ..=-2) => "held much farther",
            _ => "held nearer",
        },
    }
}

/// In pairs of different rows.
#[test]
fn limiters_stand_on_both_sides_of_pairs() {
    let mut found: BTreeMap<&str, usize> = BTreeMap::new();
    for file in files_of(Family::Structured, 3_000) {
        let account = read_account(&file.bytes).expect("accepted");
        for pair in margin(&account).pairs {
            let [held, written] = [pair.held, pair.written].map(|r| account.positions[r].terms());
            let option_type = account.series_of(pair.held).option_type;
            if held != written {
                let limiters = limiters(option_type, held.limiter, written.limiter);
                *found.entry(limiters).or_default() += 1;
            }
        }
    }
    for limiters in ["none", "written row alone", "equal", "held one farther", "held much farther"]
    {
        assert!(found.remove(limiters) > Some(100), "{limiters}");
    }
    assert_eq!(found, BTreeMap::new());
}

/// The lines of an accepted file, each with its amount before it is rounded.
fn exact_lines(account: &Account, bytes: &[u8]) -> Vec<(Line, Exact)> {
    let room = 2 * account.positions.len();
    let mut entries = vec![[0; 5]; room];
    let lines = Reference.margin(bytes, &mut entries, room).lines;
    entries.truncate(lines as usize);
    entries.into_iter().map(|line| (line, exact_of_line(account, &line).1)).collect()
}

/// How an amount stands to a multiple of 100 centavos.
fn sort(exact: Exact) -> &'static str {
    match exact % 100_000_000 {
        0 if exact == 0 => "nothing",
        0 => "a multiple",
        rest if rest % 1_000_000 == 0 => "whole centavos",
        _ => "a fraction of a centavo",
    }
}

/// Of those above 0, so that a wrong rounding shows (document 02 [6]).
#[test]
fn most_amounts_and_premiums_are_no_multiples_of_100() {
    let mut found: BTreeMap<(&str, &str), usize> = BTreeMap::new();
    for file in files_of(Family::Structured, 3_000) {
        let account = read_account(&file.bytes).expect("accepted");
        let lines = exact_lines(&account, &file.bytes).into_iter();
        let lines = lines.map(|(line, exact)| (["pair", "left"][line[0] as usize - 1], exact));
        let held = (0..account.positions.len()).filter(|r| account.positions[*r].premium > 0);
        let premium = |row| premium_amount(&account, row) as Exact * 1_000_000;
        for (of, exact) in lines.chain(held.map(|row| ("premium", premium(row)))) {
            *found.entry((of, sort(exact))).or_default() += 1;
        }
    }
    // Premiums are whole centavos, and those of 0 are not counted.
    assert_eq!(found.len(), 4 + 4 + 2);
    assert!(found.values().all(|count| *count > 20), "{found:?}");
    for of in ["pair", "left", "premium"] {
        let count = |sort| found.get(&(of, sort)).copied().unwrap_or(0);
        let others = count("whole centavos") + count("a fraction of a centavo");
        let multiples = count("a multiple");
        assert!(others > multiples, "{of}: {others}, and {multiples} multiples");
    }
}

#[test]
fn some_structured_files_have_no_rows() {
    let mut shapes = BTreeSet::new();
    for file in files_of(Family::Structured, 30_000).filter(says_no_positions) {
        let account = read_account(&file.bytes).expect("accepted");
        assert!(account.positions.is_empty());
        shapes.insert((account.series.len(), has_cover(&file, &account)));
    }
    let every_shape = (1..=32).flat_map(|series| [(series, false), (series, true)]);
    assert_eq!(shapes, every_shape.collect());
}

#[test]
fn random_and_damaged_files_without_rows_are_accepted_or_refused() {
    for (family, count) in [(Family::Random, 30_000), (Family::Damaged, 20_000)] {
        let files = files_of(family, count).filter(says_no_positions);
        let found: BTreeSet<i64> = files.map(|file| outcome(&file)).collect();
        assert!(found.is_superset(&[0, 2, 4, 5, 6].into()), "{family:?}: {found:?}");
        assert!(found.is_subset(&[0, 1, 2, 4, 5, 6].into()), "{family:?}: {found:?}");
    }
}

#[test]
fn an_account_without_rows_is_asked_about() {
    for seed in 0..100 {
        let asked = questions(seed, Some(0));
        let count = |question, purpose| asked.iter().filter(|a| **a == (question, purpose)).count();
        assert_eq!(asked.len(), 7);
        assert_eq!(count(Question::Margin { room: 0 }, "no room"), 1);
        assert_eq!(count(Question::Margin { room: 0 }, "room 2p"), 1);
        let above =
            (1..=9).chain([512]).map(|room| count(Question::Margin { room }, "room above 2p"));
        assert_eq!(above.sum::<usize>(), 1);
        for row in [0, 1, u64::MAX] {
            assert_eq!(count(Question::Amount { row }, "no such row"), 1);
        }
        assert_eq!(count(Question::Premiums, "premiums"), 1);
    }
}

#[test]
fn damaged_files_are_accepted_or_refused_with_every_number() {
    assert_eq!(outcomes(Family::Damaged, 20_000), every_outcome());
    assert_eq!(kinds(Family::Damaged, 20_000).len(), 11);
    let counts: BTreeSet<usize> = files_of(Family::Damaged, 500).map(|f| f.kinds.len()).collect();
    assert_eq!(counts, (1..=4).collect());
}

/// By how much a day passes the barriers of its series, of each kind.
fn passed<'a>(account: &'a Account, day: &'a Day) -> impl Iterator<Item = (u8, i64)> + 'a {
    let (high, low) = (day.high as i64, day.low as i64);
    let own = account.positions.iter().filter(|p| p.series as u64 == day.series);
    own.filter_map(move |position| match position.barrier {
        Barrier::None => None,
        Barrier::UpAndIn(price) => Some((1, high - price)),
        Barrier::DownAndIn(price) => Some((2, price - low)),
        Barrier::UpAndOut(price) => Some((3, high - price)),
        Barrier::DownAndOut(price) => Some((4, price - low)),
    })
}

#[test]
fn days_of_accepted_files_are_various() {
    let mut outcomes: BTreeMap<i64, usize> = BTreeMap::new();
    let mut passed_by: BTreeMap<(u8, i64), usize> = BTreeMap::new();
    for file in files_of(Family::Structured, 3_000) {
        let account = read_account(&file.bytes).expect("accepted");
        for day in days(file.seed_of_questions, Some(&account)) {
            let answer = apply_day(&mut file.bytes.clone(), &day);
            *outcomes.entry(answer.map_or_else(|r| r.number, |()| 0)).or_default() += 1;
            if answer.is_ok() {
                for (kind, by) in passed(&account, &day) {
                    *passed_by.entry((kind, by.clamp(-2, 2))).or_default() += 1;
                }
            }
        }
    }
    assert_eq!(outcomes.keys().copied().collect::<Vec<_>>(), [0, 16, 17]);
    assert!(outcomes.values().all(|count| *count > 1_000), "{outcomes:?}");
    // Missed by far and by a tick, met exactly, passed by a tick and by far.
    assert_eq!(passed_by.len(), 4 * 5);
    assert!(passed_by.values().all(|count| *count > 50), "{passed_by:?}");
}

#[test]
fn days_of_refused_files_are_asked_too() {
    for seed in 0..100 {
        let asked = days(seed, None);
        assert_eq!(asked.len(), 2);
        assert_eq!(asked, days(seed, None));
    }
    let spoiled: Vec<Day> = (0..100).map(|seed| days(seed, None)[1]).collect();
    assert!(spoiled.iter().any(|day| day.series > u32::MAX.into()));
    assert!(spoiled.iter().any(|day| day.high < day.low));
}

#[test]
fn all_factors_are_asked_for_once() {
    let asked: Vec<(u64, u64)> = asked_once().collect();
    let given = asked.iter().filter(|(code, days)| expectation(*code, *days) == "given").count();
    let different: BTreeSet<&(u64, u64)> = asked.iter().collect();
    assert_eq!((given, different.len()), (4 * 1_801, asked.len()));
    for code in (0..=5).chain([256, 65_536, 1 << 32, (1 << 32) + 1, (1 << 32) + 2, u64::MAX]) {
        for days in [1_801, 1_802, 1 << 32, 1 << 63, u64::MAX] {
            assert!(different.contains(&(code, days)), "{code} {days}");
        }
        assert!(different.contains(&(code, 0)) && different.contains(&(code, 1_800)), "{code}");
    }
}

#[test]
fn codes_and_days_drawn_are_various() {
    let all: Vec<(u64, u64)> = (0..30_000).map(|number| drawn(SEED, number)).collect();
    let count = |name| all.iter().filter(|(code, days)| expectation(*code, *days) == name).count();
    for name in ["given", "refused, code", "refused, days", "refused, both"] {
        assert!(count(name) > 1_000, "{name}: {}", count(name));
    }
    let codes: BTreeSet<u64> = all.iter().map(|(code, _)| *code).collect();
    let days: BTreeSet<u64> = all.iter().map(|(_, days)| *days).collect();
    assert!((0..=20).all(|code| codes.contains(&code)));
    assert!((1_790..=1_820).all(|day| days.contains(&day)));
    // A code or days in the low bits, and one bit above them.
    for bit in 11..64 {
        assert!((0..4).any(|code| codes.contains(&(code + (1 << bit)))), "{bit}");
        assert!((0..=1_800).any(|day| days.contains(&(day + (1 << bit)))), "{bit}");
    }
    let of_other_seed = (0..100).filter(|n| drawn(SEED + 1, *n) == all[*n as usize]);
    assert!(of_other_seed.count() < 5);
}

/// Compares the reference with the other implementation on the first files and loads, then on the factors.
fn compared(other: &dyn Implementation, count: u64) -> Result<Summary, Box<Difference>> {
    let mut lending = Lending::new();
    let mut summary = Summary::default();
    for number in 0..count {
        let file = file(SEED, number);
        compare_file(&file, &Reference, other, &mut lending, &mut summary)?;
        compare_factors(drawn(SEED, number), &Reference, other, &mut summary)?;
        let load = loads::drawn(SEED, number);
        compare_load(&load, &Reference, other, &mut lending, &mut summary)?;
    }
    for code_and_days in asked_once() {
        compare_factors(code_and_days, &Reference, other, &mut summary)?;
    }
    Ok(summary)
}

#[test]
fn the_reference_does_not_differ_from_itself() {
    let summary = compared(&Reference, 3_000).expect("no difference");
    assert_eq!(summary.files, 3_000);
    let text = summary.to_string();
    assert!(text.ends_with("\n3000 files, 0 differences"));
    // 7,204 that are given, 170 that are not, and one with each file.
    assert!(text.contains("\nserpentgleam_factors: 10374 calls: given: "));
    assert!(text.contains("\nserpentgleam_day: "));
    assert!(text.contains(", with blocked contracts: "));
    assert!(text.contains("\nserpentgleam_load: 3000 calls, "));
    assert!(text.contains("; made by a load: ") || text.contains(": made by a load: "));
}

#[test]
fn every_changed_answer_is_found() {
    for (name, change) in CHANGES {
        // Reading outside ends the program, and is tried with it.
        if change == Change::ReadingOutside {
            continue;
        }
        let found = compared(&Changed { of: &Reference, change }, 3_000);
        let difference = found.expect_err(name);
        let written = matches!(*difference, Difference::FileWrittenTo { .. });
        assert_eq!(written, change == Change::FileWritten, "{name}");
        let beside = matches!(*difference, Difference::WrittenBeside { .. });
        let writes_beside = matches!(change, Change::DayBeside | Change::LoadBeside);
        assert_eq!(beside, writes_beside, "{name}");
    }
}
