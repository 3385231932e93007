//! The files to compare on. A file depends on the seed and its number alone.

use reference::random::Random;

use crate::{damage, random_files, structured};

pub const LONGEST_FILE: usize = reference::reader::LONGEST_FILE;
/// No longer file is made.
pub const LONGEST_MADE: usize = 98_304;

#[derive(Clone, Copy, Debug, PartialEq, Eq)]
pub enum Family {
    Random,
    Structured,
    Damaged,
}

#[derive(Clone, Debug, PartialEq, Eq)]
pub struct File {
    pub number: u64,
    pub family: Family,
    /// How the file was made, or how it was damaged: one kind for each fault.
    pub kinds: Vec<&'static str>,
    pub bytes: Vec<u8>,
    /// Decides what is asked about the file.
    pub seed_of_questions: u64,
}

pub fn file(seed: u64, number: u64) -> File {
    let mut random = Random::new(Random::new(seed).draw() ^ number);
    let (family, (kinds, bytes)) = match number % 3 {
        0 => (Family::Random, random_files::random_file(&mut random)),
        1 => (Family::Structured, structured::structured_file(&mut random)),
        _ => (Family::Damaged, damage::damaged_file(&mut random)),
    };
    File { number, family, kinds, bytes, seed_of_questions: random.draw() }
}

impl Family {
    pub fn name(self) -> &'static str {
        match self {
            Family::Random => "random",
            Family::Structured => "structured",
            Family::Damaged => "damaged",
        }
    }
}

pub fn random_bytes(random: &mut Random, count: usize) -> Vec<u8> {
    let mut bytes = Vec::with_capacity(count + 8);
    while bytes.len() < count {
        bytes.extend(random.draw().to_le_bytes());
    }
    bytes.truncate(count);
    bytes
}

/// One of the values, each as often as its weight says.
pub fn weighted<T: Copy>(random: &mut Random, choices: &[(i64, T)]) -> T {
    let all = choices.iter().map(|(weight, _)| weight).sum();
    let mut left = random.between(1, all);
    for (weight, value) in choices {
        left -= weight;
        if left <= 0 {
            return *value;
        }
    }
    unreachable!("the weights add up");
}
