//! Accounts at random: the library's load of a seed, so that they are the same on every machine.

use std::iter::repeat_with;

use reference::load::{LEAST_SEED, MOST_SEED};
use reference::random::Random;
use reference::reader::{distance, Refusal};

use crate::value;

// The tests are built without the library's archive and take the reference's load. The program `bench` compares the bytes that
// the two make.
#[cfg(not(test))]
use self::engine_load as load_into;
#[cfg(test)]
use reference::load::load as load_into;

/// The file of a seed and p rows, 1 to 256.
pub fn load(seed: u64, p: u64) -> Vec<u8> {
    let mut file = vec![0; distance(1, p as usize)];
    let made = load_into(seed, p, &mut file);
    assert!(made == Ok(file.len()), "the load of seed {seed}, {p} rows: {made:?}");
    file
}

/// The library's load: the number of bytes of the file, which stands at the buffer's start.
#[inline]
pub fn engine_load(seed: u64, p: u64, buffer: &mut [u8]) -> Result<usize, Refusal> {
    value(library::load(seed, p, buffer)).map(|bytes| bytes as usize)
}

/// Seeds of accounts that are measured one after another: numbers at random, always the same. The accounts of seeds 1, 2, 3 ..
/// follow a pattern, such as about 31 with calls after about 31 with puts.
pub fn seeds() -> impl Iterator<Item = u64> {
    let mut random = Random::new(1);
    repeat_with(move || random.between(LEAST_SEED as i64, MOST_SEED as i64) as u64)
}
