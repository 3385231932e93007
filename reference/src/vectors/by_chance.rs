//! Accounts by chance, and good files with a change by chance.

use super::rows::sound;
use super::{Cases, Expect, SEED};
use crate::position_row::FLAG_LIMITER;
use crate::random::Random;
use crate::sample::{
    limited_alike, sample_account, sample_series, some_blocked, some_knocked_out, Shape,
};

const MIDDLE: Shape = Shape {
    series: (1, 6),
    positions: (8, 40),
    pv: (900, 4000),
    quantity: (1, 500),
    m: (1, 100),
    fb_above_one: true,
};
const SMALL: Shape = Shape {
    series: (1, 3),
    positions: (1, 12),
    pv: (2, 60),
    quantity: (1, 9),
    m: (1, 9),
    fb_above_one: true,
};
const WIDE: Shape = Shape {
    series: (1, 4),
    positions: (4, 24),
    pv: (1, 10_000_000),
    quantity: (1, 100_000),
    m: (1, 1_000),
    fb_above_one: true,
};
/// Amounts about 100 centavos: pairs and rows left are often less.
const LEAST: Shape = Shape { positions: (4, 20), quantity: (1, 3), m: (1, 3), ..SMALL };
/// One series and many rows, for chains of pairs.
const CROWDED: Shape = Shape { series: (1, 1), positions: (12, 40), ..MIDDLE };

pub fn add_accounts(cases: &mut Cases) {
    let mut random = Random::new(SEED + 3);
    for (group, shape, count) in [
        ("random, small prices", SMALL, 60),
        ("random, middle prices", MIDDLE, 60),
        ("random, all prices", WIDE, 60),
        ("random, one series", CROWDED, 40),
    ] {
        cases.begin(group);
        for number in 0..count {
            let mut draft = sample_account(&mut random, &shape);
            if random.chance(20) {
                // A cover sheet of row bytes.
                for _ in 0..random.between(1, 4) {
                    draft.cover.extend(sample_series(&mut random, &shape).bytes());
                    draft.cover.extend(draft.positions[0].bytes());
                }
            }
            cases.accept(number.to_string(), draft);
        }
    }
}

/// Limiters at and beside each other.
pub fn add_limited_accounts(cases: &mut Cases) {
    cases.begin("random, limiters");
    let mut random = Random::new(SEED + 5);
    for (name, shape) in [("small prices", SMALL), ("one series", CROWDED)] {
        for number in 0..7 {
            let draft = sample_account(&mut random, &shape);
            cases.accept(format!("{name} {number}"), limited_alike(&mut random, draft));
        }
    }
}

/// Flag 16 on about half of the knock-outs.
pub fn add_knocked_out_accounts(cases: &mut Cases) {
    cases.begin("random, knocked out");
    let mut random = Random::new(SEED + 6);
    for (name, shape) in [("small prices", SMALL), ("middle prices", MIDDLE), ("all prices", WIDE)]
    {
        for number in 0..8 {
            let draft = sample_account(&mut random, &shape);
            cases.accept(format!("{name} {number}"), some_knocked_out(&mut random, draft));
        }
    }
}

/// Many lines to round up.
pub fn add_small_amounts(cases: &mut Cases) {
    cases.begin("random, small amounts");
    let mut random = Random::new(SEED + 7);
    for number in 0..24 {
        cases.accept(number.to_string(), sample_account(&mut random, &LEAST));
    }
}

/// Contracts of most held rows blocked, in every other account with limiters and
/// knock-outs too.
pub fn add_blocked_accounts(cases: &mut Cases) {
    cases.begin("random, blocked");
    let mut random = Random::new(SEED + 8);
    for (name, shape) in [
        ("small prices", SMALL),
        ("middle prices", MIDDLE),
        ("all prices", WIDE),
        ("one series", CROWDED),
    ] {
        for number in 0..15 {
            let mut draft = sample_account(&mut random, &shape);
            if number % 2 == 1 {
                draft = limited_alike(&mut random, draft);
                draft = some_knocked_out(&mut random, draft);
            }
            cases.accept(format!("{name} {number}"), some_blocked(&mut random, draft));
        }
    }
}

/// Bytes 5 to 7 of a row of either side changed at random, mostly one of them.
pub fn add_changed_blocked(cases: &mut Cases) {
    cases.begin("changed bytes, blocked");
    let mut random = Random::new(SEED + 9);
    let shape = Shape { positions: (1, 5), quantity: (1, 100_000), ..SMALL };
    for number in 0..60 {
        let mut draft = sample_account(&mut random, &shape);
        let row = random.between(0, draft.positions.len() as i64 - 1) as usize;
        let (byte, any) = (random.between(0, 2), random.draw() as u32 & 0xFF_FFFF);
        let of_one_byte = (random.between(1, 255) as u32) << (8 * byte);
        draft.positions[row].blocked = if random.chance(80) { of_one_byte } else { any };
        let name = format!("{number}: row {row}, {}", draft.positions[row].blocked);
        cases.add(name, draft.bytes(), Expect::Open);
    }
}

pub fn add_changed_bytes(cases: &mut Cases) {
    cases.begin("changed bytes");
    let mut random = Random::new(SEED + 4);
    one_byte(cases, &mut random);
    flags(cases, &mut random);
}

/// One byte changed at random, in the rows or the trailer.
fn one_byte(cases: &mut Cases, random: &mut Random) {
    let shape = Shape { series: (1, 3), positions: (1, 5), ..MIDDLE };
    for number in 0..80 {
        let mut bytes = sample_account(random, &shape).bytes();
        let at = random.between(0, bytes.len() as i64 - 1) as usize;
        bytes[at] ^= random.between(1, 255) as u8;
        cases.add(format!("{number}: byte {at}"), bytes, Expect::Open);
    }
}

/// All flags that have a meaning, and some that have none, on a sound row.
fn flags(cases: &mut Cases, random: &mut Random) {
    for flags in 0..=255 {
        if flags % 16 != 0 && flags > 15 && !random.chance(10) {
            continue;
        }
        let mut draft = sound();
        draft.positions[4].flags = flags;
        // Row 4 is an up-and-in without a limiter price: flag 2 makes PB 0
        // wrong.
        let expect = match (flags > 15, flags & FLAG_LIMITER != 0) {
            (true, _) => Expect::Refused(7, 4),
            (false, true) => Expect::Refused(9, 4),
            (false, false) => Expect::Accepted,
        };
        cases.add(format!("flags {flags}"), draft.bytes(), expect);
    }
}
