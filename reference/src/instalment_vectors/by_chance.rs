//! Accounts, allowances and lists by chance.

use super::lists::Lent;
use super::{above_count, apart, refused, Asked, Cases, SEED};
use crate::draft::Draft;
use crate::instalment_cases::Call;
use crate::instalments::HalfPaired;
use crate::lines::{pair_entry, Entry};
use crate::random::Random;
use crate::reader::read_account;
use crate::sample::{limited_alike, sample_account, some_blocked, some_knocked_out, Shape};

const SMALL: Shape = Shape {
    series: (1, 2),
    positions: (4, 9),
    pv: (2, 60),
    quantity: (1, 9),
    m: (1, 30),
    fb_above_one: true,
};
const WIDE: Shape = Shape { pv: (1, 10_000_000), quantity: (1, 100_000), m: (1, 1_000), ..SMALL };
const MIDDLE: Shape = Shape { series: (1, 3), positions: (12, 24), ..SMALL };

/// A file with at least so many pairs, the entries that its list needs, and the
/// lines of the pairs.
fn drawn(random: &mut Random, shape: &Shape, least: u64) -> (Vec<u8>, usize, Vec<Entry>) {
    drawn_as(random, shape, least, |_, draft| draft)
}

/// The same of accounts with something more.
fn drawn_as(
    random: &mut Random,
    shape: &Shape,
    least: u64,
    more: fn(&mut Random, Draft) -> Draft,
) -> (Vec<u8>, usize, Vec<Entry>) {
    loop {
        let draft = sample_account(random, shape);
        let limited = limited_alike(random, draft);
        let out = some_knocked_out(random, limited);
        let draft = more(random, out);
        let mut half = HalfPaired::begun(read_account(&draft.bytes()).expect("accepted"));
        if half.make(u64::MAX) >= least {
            let lines = half.pairs.iter().map(pair_entry).collect();
            return (draft.bytes(), Lent::needed(&draft), lines);
        }
    }
}

/// Allowances drawn until one makes fewer pairs than it allows.
pub fn add(cases: &mut Cases) {
    let mut random = Random::new(SEED + 1);
    for (group, shape, count, least) in [
        ("random, small prices", SMALL, 60, 2),
        ("random, all prices", WIDE, 30, 2),
        ("random, more rows", MIDDLE, 16, 5),
    ] {
        cases.begin(group);
        for number in 0..count {
            let (file, needed, lines) = drawn(&mut random, &shape, least);
            let asked = allowances(&mut random, lines.len() as u64);
            let room = needed + random.between(0, 1) as usize;
            cases.add_bytes(number.to_string(), file, Lent::marked(room), asked);
        }
    }
}

fn allowances(random: &mut Random, pairs: u64) -> Vec<Asked> {
    let (mut count, mut asked) = (0, Vec::new());
    loop {
        asked.push((Call::Amount { count }, None));
        let any = random.draw();
        let allowance = match random.between(0, 9) {
            0 => any,
            1 => 0,
            2 => pairs - count,
            _ => random.between(1, 3) as u64,
        };
        let more = allowance.min(pairs - count);
        asked.push((Call::Pair { count, allowance }, Some(Ok(more))));
        count += more;
        if more < allowance {
            return asked;
        }
    }
}

/// Lists of pairs with a number changed or a line elsewhere, and counts beside
/// those of the lines.
pub fn add_spoiled(cases: &mut Cases) {
    cases.begin("random, spoiled");
    let mut random = Random::new(SEED + 2);
    for number in 0..80 {
        let (file, needed, mut lines) = drawn(&mut random, &SMALL, 1);
        let (count, bit) = (lines.len() as u64, 1 << random.between(0, 63));
        let line = random.between(0, count as i64 - 1) as usize;
        let asked_of = match random.between(0, 4) {
            0 => count + 1,
            1 => count | bit,
            2 => random.draw(),
            _ => {
                let place = random.between(0, 4) as usize;
                lines[line][place] ^= bit;
                count
            }
        };
        let allowance = random.pick(&[0, 1, u64::MAX]);
        let asked = vec![
            (Call::Pair { count: asked_of, allowance }, None),
            (Call::Amount { count: asked_of }, None),
            (Call::Apart { count: asked_of, k: allowance }, None),
            (Call::Pair { count: line as u64, allowance }, None),
        ];
        cases.add_bytes(number.to_string(), file, Lent::with(&lines, needed), asked);
    }
}

/// Pairs made and taken apart by turns.
pub fn add_apart(cases: &mut Cases) {
    cases.begin("random, taken apart");
    let mut random = Random::new(SEED + 3);
    for number in 0..60 {
        let shape = random.pick(&[SMALL, WIDE, MIDDLE]);
        let (file, needed, lines) = drawn(&mut random, &shape, 2);
        let asked = by_turns(&mut random, lines.len() as u64);
        let room = needed + random.between(0, 1) as usize;
        cases.add_bytes(number.to_string(), file, Lent::marked(room), asked);
    }
}

/// Contracts of most held rows blocked: pairs in instalments, and by turns made
/// and taken apart; lists that are too short now and then.
pub fn add_blocked(cases: &mut Cases) {
    cases.begin("random, blocked");
    let mut random = Random::new(SEED + 4);
    for number in 0..60 {
        let shape = random.pick(&[SMALL, WIDE, MIDDLE]);
        let (file, needed, lines) = drawn_as(&mut random, &shape, 2, some_blocked);
        let pairs = lines.len() as u64;
        if number % 4 == 3 {
            let room = random.between(needed as i64 / 2, needed as i64 - 1) as usize;
            let asked = refused(pairs, random.pick(&[0, 1, u64::MAX]), 12);
            cases.add_bytes(format!("{number}, short"), file, Lent::with(&lines, room), asked);
            continue;
        }
        let asked = match number % 2 {
            0 => allowances(&mut random, pairs),
            _ => by_turns(&mut random, pairs),
        };
        cases.add_bytes(number.to_string(), file, Lent::marked(needed), asked);
    }
}

fn by_turns(random: &mut Random, pairs: u64) -> Vec<Asked> {
    let (mut count, mut asked) = (0, Vec::new());
    for _ in 0..3 {
        let allowance = random.pick(&[1, 2, 3, pairs, u64::MAX]);
        let more = allowance.min(pairs - count);
        asked.push((Call::Pair { count, allowance }, Some(Ok(more))));
        count += more;
        if random.chance(30) {
            let above = random.draw().max(count + 1);
            asked.push(above_count(count, random.pick(&[count + 1, above])));
        }
        let k = random.between(0, count as i64) as u64;
        asked.push(apart(count, k));
        count -= k;
        asked.push((Call::Amount { count }, None));
    }
    asked
}
