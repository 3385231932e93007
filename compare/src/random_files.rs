//! Bytes at random, and rows whose fields are drawn at random about their ranges.

use reference::draft::{
    trailer_for, Draft, PositionDraft, SeriesDraft, DOWN_AND_IN, HELD, UP_AND_IN,
};
use reference::position_row::{FLAG_KNOCKED_IN, FLAG_KNOCKED_OUT, FLAG_LIMITER};
use reference::random::Random;

use crate::files::{random_bytes, weighted};

const HIGHEST: i64 = 10_000_000;

type Maker = fn(&mut Random) -> Vec<u8>;

const MAKERS: [(i64, (&str, Maker)); 7] = [
    (250, ("0 to 40 bytes", |random| bytes_up_to(random, 40))),
    (150, ("0 to 300 bytes", |random| bytes_up_to(random, 300))),
    (3, ("0 to 70,000 bytes", |random| bytes_up_to(random, 70_000))),
    (3, ("65,535 to 65,538 bytes", bytes_about_the_longest)),
    (100, ("before a trailer in order", bytes_before_trailer)),
    (50, ("before counts about their ranges", bytes_before_counts)),
    (450, ("fields about their ranges", fields_about_ranges)),
];

pub fn random_file(random: &mut Random) -> (Vec<&'static str>, Vec<u8>) {
    let (name, make) = weighted(random, &MAKERS);
    (vec![name], make(random))
}

fn bytes_up_to(random: &mut Random, longest: i64) -> Vec<u8> {
    let length = random.between(0, longest) as usize;
    random_bytes(random, length)
}

fn bytes_about_the_longest(random: &mut Random) -> Vec<u8> {
    let length = random.between(65_535, 65_538) as usize;
    random_bytes(random, length)
}

/// The counts and the distance are in order, the rows are not.
fn bytes_before_trailer(random: &mut Random) -> Vec<u8> {
    let series = random.between(1, 3) as usize;
    let positions = random.between(0, 5) as usize;
    let cover = random.pick(&[0, 0, 1, 24, 50]);
    let mut bytes = random_bytes(random, cover + 24 * series + 32 * positions);
    bytes.extend(trailer_for(series, positions));
    bytes
}

/// Counts at or beside their ends, a distance that fits them, and often too few bytes for them.
fn bytes_before_counts(random: &mut Random) -> Vec<u8> {
    let mut bytes = bytes_up_to(random, 300);
    let series = random.pick(&[0, 1, 2, 31, 32, 33, 65_535]);
    let positions = random.pick(&[0, 1, 2, 255, 256, 257, 65_535]);
    bytes.extend(trailer_for(series, positions));
    bytes
}

fn fields_about_ranges(random: &mut Random) -> Vec<u8> {
    let series: Vec<SeriesDraft> =
        (0..random.between(1, 3)).map(|_| random_series(random)).collect();
    let positions = (0..random.between(0, 6)).map(|_| random_position(random, &series)).collect();
    Draft::new(series, positions).bytes()
}

/// Mostly a number of the range, or one of its ends; now and then one beside it or far away.
fn about(random: &mut Random, least: i64, most: i64) -> u32 {
    match random.between(0, 199) {
        0 => (most + 1) as u32,
        1 => (least - 1) as u32,
        2 => random.draw() as u32,
        3..=30 => random.pick(&[least, most]) as u32,
        _ => random.between(least, most) as u32,
    }
}

fn random_series(random: &mut Random) -> SeriesDraft {
    let highest_pv = random.pick(&[5, 100, 5_000, HIGHEST]);
    let fa = about(random, 1_000_000, 3_000_000);
    SeriesDraft {
        pv: about(random, 1, highest_pv),
        fa,
        fb: about(random, 0, fa as i64),
        f3: about(random, 0, 1_000_000),
        m: about(random, 1, 1_000),
        type_byte: about(random, 0, 1) as u8,
        spare: spare(random),
    }
}

fn spare(random: &mut Random) -> [u8; 3] {
    let mut bytes = [0; 3];
    if random.chance(1) {
        bytes[random.between(0, 2) as usize] = random.between(1, 255) as u8;
    }
    bytes
}

/// Often some contracts of a held row, now and then one more than it has; seldom any of a written one.
fn blocked(random: &mut Random, row: &PositionDraft) -> u32 {
    match (row.side, random.between(0, 99)) {
        (HELD, 0..=49) => about(random, 0, row.quantity.into()) & 0xFF_FFFF,
        (_, 99) => 1 << random.between(0, 23),
        _ => 0,
    }
}

fn random_position(random: &mut Random, all_series: &[SeriesDraft]) -> PositionDraft {
    let number = random.between(0, all_series.len() as i64 - 1);
    let pv = all_series[number as usize].pv as i64;
    let side = about(random, 0, 1) as u8;
    let strike = about(random, 1, (2 * pv).clamp(1, HIGHEST));
    let mut row = PositionDraft::plain(number as u16, side, strike, about(random, 1, 100_000));
    if random.chance(2) {
        row.series = all_series.len() as u16;
    }
    row.flags = random.pick(&[4, 4, 4, 8, 12, 0]);
    row.blocked = blocked(random, &row);
    if row.side == HELD || random.chance(1) {
        row.premium = about(random, 0, HIGHEST);
    }
    if random.chance(20) {
        row.flags |= FLAG_LIMITER;
        row.limiter = (strike as i64 + random.between(-3, 3)).max(0) as u32;
    }
    if random.chance(50) {
        let beside = random.between(1, pv.clamp(1, HIGHEST));
        row.kind = about(random, 1, 4) as u8;
        let up = row.kind % 2 == 1 || random.chance(2);
        row.barrier = (if up { pv + beside } else { pv - beside }).max(0) as u32;
        row.rebate = about(random, 0, pv.clamp(1, HIGHEST));
        row.flags |= flag_of_a_day(random, row.kind);
    }
    if random.chance(1) {
        row.flags = random.draw() as u8;
    }
    row
}

/// Now and then flag 1 or 16, seldom the one that the kind may not have.
fn flag_of_a_day(random: &mut Random, kind: u8) -> u8 {
    let own =
        if kind == UP_AND_IN || kind == DOWN_AND_IN { FLAG_KNOCKED_IN } else { FLAG_KNOCKED_OUT };
    let other = FLAG_KNOCKED_IN + FLAG_KNOCKED_OUT - own;
    weighted(random, &[(160, 0), (38, own), (1, other), (1, own | other)])
}
