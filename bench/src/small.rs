//! Many small accounts at random, to be measured one after another: which of two numbers in a margin rule is the larger
//! cannot be told from the accounts before.

use reference::draft::{DOWN_AND_IN, DOWN_AND_OUT, NO_BARRIER, UP_AND_IN, UP_AND_OUT, WRITTEN};
use reference::reader::SERIES_BYTES;

use crate::load::{load, seeds};

/// So many that a processor cannot predict which number is the larger from what it met before. Of the accounts measured before
/// version 0.10.0 an AMD EPYC still could with 256 small ones, or 4,096 single positions of one kind; with 16,384 positions one
/// took nearly as long as with these.
const SMALL_ACCOUNTS: usize = 4_096;
const SINGLE_POSITIONS: usize = 32_768;

/// Where side and kind of the first row stand in a load: after the series row and the two bytes of the row's series.
const SIDE_AT: usize = SERIES_BYTES + 2;
const KIND_AT: usize = SERIES_BYTES + 3;

/// Kinds of barrier of single positions, by name.
pub const KINDS: [(&str, &[u8]); 6] = [
    ("kinds mixed", &[NO_BARRIER, UP_AND_IN, DOWN_AND_IN, UP_AND_OUT, DOWN_AND_OUT]),
    ("no barrier", &[NO_BARRIER]),
    ("up-and-in", &[UP_AND_IN]),
    ("down-and-in", &[DOWN_AND_IN]),
    ("up-and-out", &[UP_AND_OUT]),
    ("down-and-out", &[DOWN_AND_OUT]),
];

/// Loads of 2 to 8 rows.
pub fn small_accounts() -> Vec<Vec<u8>> {
    seeds().map(|seed| load(seed, 2 + seed % 7)).take(SMALL_ACCOUNTS).collect()
}

/// Loads of one row that is written, of one of the kinds.
pub fn single_positions(kinds: &[u8]) -> Vec<Vec<u8>> {
    seeds()
        .map(|seed| load(seed, 1))
        .filter(|file| file[SIDE_AT] == WRITTEN && kinds.contains(&file[KIND_AT]))
        .take(SINGLE_POSITIONS)
        .collect()
}
