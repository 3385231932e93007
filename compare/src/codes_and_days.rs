//! The codes and the days that the factors are asked for.

use reference::factors::MOST_DAYS;
use reference::random::Random;

use crate::files::weighted;

const MOST_CODE: u64 = 3;

/// Some of these have low bits that would be a code, or days, by themselves.
const CODES_ABOVE: [u64; 10] =
    [4, 5, 256, 65_536, 1 << 32, (1 << 32) + 1, (1 << 32) + 2, 1 << 63, (1 << 63) + 3, u64::MAX];
const DAYS_ABOVE: [u64; 10] = [
    1_801,
    1_802,
    2_048,
    65_536 + 90,
    1 << 32,
    (1 << 32) + 360,
    (1 << 32) + 1_800,
    1 << 63,
    (1 << 63) + 90,
    u64::MAX,
];

/// What is asked once a run: all that are given, then some that are refused.
pub fn asked_once() -> impl Iterator<Item = (u64, u64)> {
    let given = (0..=MOST_CODE).flat_map(|code| (0..=MOST_DAYS).map(move |days| (code, days)));
    let codes = (0..=MOST_CODE).chain(CODES_ABOVE);
    let with_days_above = codes.flat_map(|code| DAYS_ABOVE.map(|days| (code, days)));
    let with_days = CODES_ABOVE.into_iter().flat_map(|code| [0, 1, 1_800].map(|days| (code, days)));
    given.chain(with_days_above).chain(with_days)
}

/// What is asked after the file of this number. It depends on the seed and the number alone.
pub fn drawn(seed: u64, number: u64) -> (u64, u64) {
    // Other numbers than those that the file is made of.
    let mut random = Random::new(Random::new(!seed).draw() ^ number);
    (up_to_or_above(&mut random, MOST_CODE), up_to_or_above(&mut random, MOST_DAYS))
}

/// A number up to the most, a little above it, with a high bit more, or any.
fn up_to_or_above(random: &mut Random, most: u64) -> u64 {
    let low = random.between(0, most as i64) as u64;
    let higher_bit = random.between(most.ilog2() as i64 + 1, 63);
    let (above, any) = (most + random.between(1, 20) as u64, random.draw());
    weighted(random, &[(30, low), (20, above), (30, low + (1 << higher_bit)), (20, any)])
}

/// Given, or why refused.
pub fn expectation(code: u64, days: u64) -> &'static str {
    match (code > MOST_CODE, days > MOST_DAYS) {
        (false, false) => "given",
        (true, false) => "refused, code",
        (false, true) => "refused, days",
        (true, true) => "refused, both",
    }
}
