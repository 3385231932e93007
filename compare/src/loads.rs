//! The loads that are asked for: seeds, rows and buffers.

use reference::load::{MODULUS, MOST_ROWS, MOST_SEED};
use reference::random::Random;
use reference::reader::distance;

use crate::files::{random_bytes, weighted};
use crate::lending::Place;

/// A file for a seed and p rows, into a buffer of so many bytes.
#[derive(Clone, Copy, Debug, PartialEq, Eq)]
pub struct Load {
    pub seed: u64,
    pub p: u64,
    pub room: usize,
}

/// A load, what its buffer holds before it, where that stands, and whether the file that is made is asked about.
#[derive(Clone, Debug, PartialEq, Eq)]
pub struct Drawn {
    pub load: Load,
    pub before: Vec<u8>,
    pub place: Place,
    pub lines: bool,
}

/// Lines are asked for up to this many rows, and of one in so many loads with more.
const FEW_ROWS: u64 = 40;
const ONE_IN: u64 = 16;

/// What is asked after the file of this number. It depends on the seed and the number alone.
pub fn drawn(seed: u64, number: u64) -> Drawn {
    // Other numbers than those that the file and the factors are drawn from.
    let random = &mut Random::new(Random::new(seed.wrapping_add(10)).draw() ^ !number);
    let (seed, p) = seed_and_rows(random);
    let room = room(random, p);
    let place = random.pick(&[Place::BehindForbidden, Place::BeforeForbidden]);
    let lines = p <= FEW_ROWS || random.draw().is_multiple_of(ONE_IN);
    Drawn { load: Load { seed, p, room }, before: random_bytes(random, room), place, lines }
}

/// Both in their ranges in seven out of ten; else one of them, or both, at an end or outside.
fn seed_and_rows(random: &mut Random) -> (u64, u64) {
    let (good_seed, good_rows) = (seed_in_range(random), rows_in_range(random));
    let (other_seed, other_rows) = (seed_about_range(random), rows_about_range(random));
    weighted(
        random,
        &[
            (70, (good_seed, good_rows)),
            (12, (other_seed, good_rows)),
            (12, (good_seed, other_rows)),
            (6, (other_seed, other_rows)),
        ],
    )
}

fn seed_in_range(random: &mut Random) -> u64 {
    let any = random.between(1, MOST_SEED as i64) as u64;
    let low = random.between(1, 20) as u64;
    weighted(random, &[(80, any), (8, low), (8, MOST_SEED + 1 - low), (2, 1), (2, MOST_SEED)])
}

fn rows_in_range(random: &mut Random) -> u64 {
    let mut between = |least, most| random.between(least, most) as u64;
    let (few, some, any) = (between(1, 8), between(9, 40), between(1, MOST_ROWS as i64));
    weighted(random, &[(75, few), (12, some), (3, any), (7, 1), (3, MOST_ROWS)])
}

/// Ends, numbers right outside, numbers whose low bits alone would be accepted, and any.
fn seed_about_range(random: &mut Random) -> u64 {
    let (any, bit) = (random.draw(), 1 << random.between(31, 63));
    let end = random.pick(&[0, 1, MOST_SEED, MODULUS, MODULUS + 1, u64::MAX]);
    let low = seed_in_range(random);
    weighted(random, &[(50, end), (30, low | bit), (20, any)])
}

/// Where 32 × p passes 64 bits, its low bits can be those of a p in its range.
fn rows_about_range(random: &mut Random) -> u64 {
    let (any, bit) = (random.draw(), 1 << random.between(9, 63));
    let high_bit = 1 << random.between(59, 63);
    let end = random.pick(&[0, 1, MOST_ROWS, MOST_ROWS + 1, MOST_ROWS + 2, u64::MAX]);
    let low = rows_in_range(random);
    weighted(random, &[(40, end), (30, low | bit), (20, low | high_bit), (10, any)])
}

/// As long as the file, longer, one byte short, shorter and empty. Of a p out of its range the low bits are taken.
fn room(random: &mut Random, p: u64) -> usize {
    let needed = distance(1, (p % 512) as usize);
    let mut between = |least: usize, most| random.between(least as i64, most as i64) as usize;
    let (little, more) = (between(1, 40), between(1, 9_000));
    let (below, row) = (between(0, needed - 1), between(1, 32));
    weighted(
        random,
        &[
            (35, needed),
            (30, needed + little),
            (8, needed + more),
            (10, needed - 1),
            (6, needed - row),
            (7, below),
            (4, 0),
        ],
    )
}

/// Made, or why refused.
pub fn expectation(load: &Load) -> &'static str {
    let seed = (1..=MOST_SEED).contains(&load.seed);
    let rows = (1..=MOST_ROWS).contains(&load.p);
    let needed = 36 + 32 * u128::from(load.p);
    match (seed, rows, (load.room as u128).cmp(&needed)) {
        (true, true, std::cmp::Ordering::Less) => "buffer too short",
        (true, true, std::cmp::Ordering::Equal) => "made, no byte after it",
        (true, true, std::cmp::Ordering::Greater) => "made, bytes after it",
        (false, true, _) => "no such seed",
        (true, false, _) => "no such p",
        (false, false, _) => "no such seed nor p",
    }
}
