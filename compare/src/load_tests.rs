//! The loads that are asked for (document 02 [10]) are what they are meant to be.

use std::collections::{BTreeMap, BTreeSet};

use reference::load::load;
use reference::reader::distance;

use crate::changed_loads;
use crate::changes::{Change, Changed, CHANGES};
use crate::comparison::{compare_load, Difference};
use crate::implementation::{Answer, Implementation, Reference};
use crate::lending::{Lending, Place};
use crate::loads::{drawn, expectation, Drawn, Load};
use crate::questions::Question;
use crate::summary::Summary;

const SEED: u64 = 13;

fn all(count: u64) -> impl Iterator<Item = Drawn> {
    (0..count).map(|number| drawn(SEED, number))
}

#[test]
fn the_seed_fixes_the_loads() {
    for number in (0..500).rev() {
        assert!(drawn(SEED, number) == drawn(SEED, number));
    }
    let of_other_seed = (0..500).filter(|n| drawn(SEED + 1, *n).load == drawn(SEED, *n).load);
    assert!(of_other_seed.count() < 20);
}

/// What is expected is what the reference answers.
#[test]
fn loads_are_made_and_refused_for_every_reason() {
    let mut found: BTreeMap<&str, usize> = BTreeMap::new();
    for Drawn { load: asked, mut before, .. } in all(30_000) {
        assert_eq!(before.len(), asked.room);
        let made = load(asked.seed, asked.p, &mut before).is_ok();
        assert_eq!(made, expectation(&asked).starts_with("made"), "{asked:?}");
        *found.entry(expectation(&asked)).or_default() += 1;
    }
    assert_eq!(found.len(), 6);
    assert!(found.values().all(|count| *count > 500), "{found:?}");
}

/// Ends of the ranges, numbers right outside them, and numbers with a high bit more.
#[test]
fn seeds_and_rows_are_various() {
    let loads: Vec<Load> = all(60_000).map(|drawn| drawn.load).collect();
    let seeds: BTreeSet<u64> = loads.iter().map(|load| load.seed).collect();
    let rows: BTreeSet<u64> = loads.iter().map(|load| load.p).collect();
    for seed in (0..=20).chain(2_147_483_627..=2_147_483_648).chain([u64::MAX]) {
        assert!(seeds.contains(&seed), "{seed}");
    }
    assert!((0..=258).chain([u64::MAX]).all(|p| rows.contains(&p)));
    for bit in 31..64 {
        let one_bit_more = |n: &u64| (1..=2_147_483_646).contains(&(n ^ (1 << bit)));
        assert!(seeds.iter().any(|seed| seed >> bit == 1 && one_bit_more(seed)), "{bit}");
    }
    for bit in 9..64 {
        let one_bit_more = |n: &u64| (1..=256).contains(&(n ^ (1 << bit)));
        assert!(rows.iter().any(one_bit_more), "{bit}");
    }
}

/// Buffers of loads whose seed and p are in their ranges, by how much longer they are than the file.
#[test]
fn buffers_are_various() {
    let mut more: BTreeMap<i64, usize> = BTreeMap::new();
    let (mut places, mut empty) = (BTreeSet::new(), 0);
    for Drawn { load, place, .. } in all(30_000) {
        if expectation(&load).starts_with("no such") {
            continue;
        }
        let by = load.room as i64 - distance(1, load.p as usize) as i64;
        *more.entry(by.clamp(-33, 41)).or_default() += 1;
        places.insert((place == Place::BehindForbidden, by.signum()));
        empty += usize::from(load.room == 0);
    }
    assert_eq!(more.len(), 33 + 1 + 41);
    assert!(more[&0] > 3_000 && more[&-1] > 1_000 && more[&41] > 1_000 && empty > 300);
    assert_eq!(places.len(), 2 * 3);
}

/// A list of lines is asked for of most loads that are made, and of some with 256 rows.
#[test]
fn files_that_are_made_are_asked_about() {
    let made = all(30_000).filter(|drawn| expectation(&drawn.load).starts_with("made"));
    let (asked, not): (Vec<Drawn>, Vec<Drawn>) = made.partition(|drawn| drawn.lines);
    assert!(asked.len() > 10 * not.len(), "{} {}", asked.len(), not.len());
    assert!(asked.iter().any(|drawn| drawn.load.p == 256));
    assert!(not.iter().all(|drawn| drawn.load.p > 40));
}

/// One step back from a seed, its first state is drawn from the seed itself.
#[test]
fn a_changed_load_begins_with_the_seed() {
    let mut buffer = vec![0; 68];
    for seed in [1, 2, 48_271, 2_147_483_646] {
        let answer =
            changed_loads::answer(Change::LoadStateBefore, &Reference, (seed, 1), &mut buffer);
        assert_eq!(answer, Answer { refusal: 0, row: 0, value: 68 });
        let pv = u32::from_le_bytes([buffer[0], buffer[1], buffer[2], buffer[3]]);
        assert_eq!(u64::from(pv), 1_000 + seed % 9_000);
        assert_eq!(Reference.load(seed, 1, &mut buffer).value, 68);
    }
}

/// Compares the reference with the other implementation on the first loads.
fn compared(other: &dyn Implementation, count: u64) -> Result<Summary, Box<Difference>> {
    let mut lending = Lending::new();
    let mut summary = Summary::default();
    for drawn in all(count) {
        compare_load(&drawn, &Reference, other, &mut lending, &mut summary)?;
    }
    Ok(summary)
}

fn asked(difference: &Difference) -> Question {
    match *difference {
        Difference::Answers { question, .. }
        | Difference::OnList { question, .. }
        | Difference::FileWrittenTo { question }
        | Difference::WrittenBeside { question } => question,
    }
}

/// Each change of loads is found by a load, or by the lines of the file made.
#[test]
fn changes_are_found_by_loads() {
    let at = |change: Change| CHANGES.iter().position(|known| known.1 == change).expect("known");
    let of_loads = at(Change::LoadSeedCut)..at(Change::FileWritten);
    assert_eq!(of_loads.len(), 39);
    for (name, change) in &CHANGES[of_loads] {
        let difference =
            compared(&Changed { of: &Reference, change: *change }, 3_000).expect_err(name);
        let by_load = matches!(asked(&difference), Question::Load(_));
        assert_eq!(by_load, *change != Change::LoadLines, "{name}");
    }
    for change in [Change::Total, Change::LineCount, Change::FileWritten] {
        let difference = compared(&Changed { of: &Reference, change }, 3_000).expect_err("found");
        assert!(matches!(asked(&difference), Question::Margin { .. }), "{change:?}");
    }
}
