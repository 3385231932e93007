//! Structured files with one to four faults.

use reference::draft::{trailer_for, Draft};
use reference::random::Random;
use reference::reader::{distance, POSITION_BYTES, SERIES_BYTES, TRAILER_BYTES};

use crate::files::{weighted, LONGEST_MADE};
use crate::structured::{structured_draft, structured_file};

/// A file to be damaged, with the counts it was made with.
struct Damaged {
    bytes: Vec<u8>,
    series: usize,
    positions: usize,
}

/// Puts a fault in; false where the file has no place for it.
type Fault = fn(&mut Random, &mut Damaged) -> bool;

const FAULTS: [(i64, (&str, Fault)); 11] = [
    (15, ("bit anywhere", bit_anywhere)),
    (20, ("bit in the rows", bit_in_rows)),
    (5, ("bit in the trailer", bit_in_trailer)),
    (5, ("cut at the front", cut_at_front)),
    (5, ("cut at the end", cut_at_end)),
    (5, ("cut in the middle", cut_in_middle)),
    (8, ("splice of two files", splice)),
    (7, ("bytes repeated", bytes_repeated)),
    (45, ("field at a boundary", field_at_boundary)),
    (10, ("counts changed", counts_changed)),
    (10, ("number blocked", number_blocked)),
];

pub fn damaged_file(random: &mut Random) -> (Vec<&'static str>, Vec<u8>) {
    let (_, draft) = structured_draft(random);
    let mut damaged = damaged_from(&draft);
    let count = weighted(random, &[(60, 1), (25, 2), (10, 3), (5, 4)]);
    let mut kinds = Vec::new();
    while kinds.len() < count {
        let (name, put) = weighted(random, &FAULTS);
        if put(random, &mut damaged) {
            kinds.push(name);
        }
    }
    damaged.bytes.truncate(LONGEST_MADE);
    (kinds, damaged.bytes)
}

fn damaged_from(draft: &Draft) -> Damaged {
    Damaged { bytes: draft.bytes(), series: draft.series.len(), positions: draft.positions.len() }
}

impl Damaged {
    /// Where the rows begin, if the file is still long enough.
    fn first_row(&self) -> Option<usize> {
        self.bytes.len().checked_sub(distance(self.series, self.positions))
    }

    fn first_of_trailer(&self) -> Option<usize> {
        self.bytes.len().checked_sub(TRAILER_BYTES)
    }

    fn flip_bit(&mut self, random: &mut Random, first: usize, end: usize) -> bool {
        if first >= end {
            return false;
        }
        self.bytes[below(random, end - first) + first] ^= 1 << random.between(0, 7);
        true
    }
}

/// A number from 0 to `count` - 1.
fn below(random: &mut Random, count: usize) -> usize {
    random.between(0, count as i64 - 1) as usize
}

fn bit_anywhere(random: &mut Random, file: &mut Damaged) -> bool {
    file.flip_bit(random, 0, file.bytes.len())
}

fn bit_in_rows(random: &mut Random, file: &mut Damaged) -> bool {
    let (Some(first), Some(end)) = (file.first_row(), file.first_of_trailer()) else {
        return false;
    };
    file.flip_bit(random, first, end)
}

fn bit_in_trailer(random: &mut Random, file: &mut Damaged) -> bool {
    let Some(first) = file.first_of_trailer() else { return false };
    file.flip_bit(random, first, file.bytes.len())
}

/// How much to cut or to repeat: a few bytes, a row, or any number up to the whole file.
fn piece(random: &mut Random, file: &Damaged) -> Option<usize> {
    let length = file.bytes.len();
    if length == 0 {
        return None;
    }
    let few = random.between(1, 40) as usize;
    let any = 1 + below(random, length);
    Some(random.pick(&[1, few, SERIES_BYTES, POSITION_BYTES, any]).min(length))
}

fn cut_at_front(random: &mut Random, file: &mut Damaged) -> bool {
    let Some(count) = piece(random, file) else { return false };
    file.bytes.drain(..count);
    true
}

fn cut_at_end(random: &mut Random, file: &mut Damaged) -> bool {
    let Some(count) = piece(random, file) else { return false };
    file.bytes.truncate(file.bytes.len() - count);
    true
}

fn cut_in_middle(random: &mut Random, file: &mut Damaged) -> bool {
    let Some(count) = piece(random, file) else { return false };
    let first = below(random, file.bytes.len() - count + 1);
    file.bytes.drain(first..first + count);
    true
}

/// The front of the file, up to any byte, and the back of another one.
fn splice(random: &mut Random, file: &mut Damaged) -> bool {
    let (_, other) = structured_file(random);
    let kept = below(random, file.bytes.len() + 1);
    let from = below(random, other.len());
    file.bytes.truncate(kept);
    file.bytes.extend(&other[from..]);
    true
}

fn bytes_repeated(random: &mut Random, file: &mut Damaged) -> bool {
    let Some(count) = piece(random, file) else { return false };
    let first = below(random, file.bytes.len() - count + 1);
    let again = file.bytes[first..first + count].to_vec();
    file.bytes.splice(first..first, again);
    true
}

/// Where each field of a row begins; the last number is where the row ends. The number blocked has three bytes.
const SERIES_FIELDS: [usize; 10] = [0, 4, 8, 12, 16, 20, 21, 22, 23, 24];
const POSITION_FIELDS: [usize; 12] = [0, 2, 3, 4, 5, 8, 12, 16, 20, 24, 28, 32];
#[rustfmt::skip]
const BOUNDARIES: [u32; 23] = [
    0, 1, 2, 3, 4, 5, 8, 16, 31, 32, 255, 256, 1_000, 1_001, 65_535, 99_999, 100_000, 999_999,
    1_000_000, 9_999_999, 10_000_000, 1 << 31, u32::MAX,
];

fn field_at_boundary(random: &mut Random, file: &mut Damaged) -> bool {
    let Some(first) = file.first_row() else { return false };
    let (at, width) = random_field(random, file, first);
    let value = if random.chance(50) {
        random.pick(&BOUNDARIES)
    } else {
        // The value of another field.
        let (other, other_width) = random_field(random, file, first);
        let mut bytes = [0; 4];
        bytes[..other_width].copy_from_slice(&file.bytes[other..other + other_width]);
        u32::from_le_bytes(bytes)
    };
    let beside = value.wrapping_add(random.pick(&[0, 0, 0, 1, u32::MAX]));
    file.bytes[at..at + width].copy_from_slice(&beside.to_le_bytes()[..width]);
    true
}

/// Place in the file and width of a field of any row.
fn random_field(random: &mut Random, file: &Damaged, first: usize) -> (usize, usize) {
    let in_series = random.chance(30) || file.positions == 0;
    let fields: &[usize] = if in_series { &SERIES_FIELDS } else { &POSITION_FIELDS };
    let field = below(random, fields.len() - 1);
    let row = if in_series {
        first + SERIES_BYTES * below(random, file.series)
    } else {
        first + SERIES_BYTES * file.series + POSITION_BYTES * below(random, file.positions)
    };
    (row + fields[field], fields[field + 1] - fields[field])
}

/// The number blocked of a row of either side: about its Q, with one byte alone, or the largest.
fn number_blocked(random: &mut Random, file: &mut Damaged) -> bool {
    let (Some(first), true) = (file.first_row(), file.positions > 0) else { return false };
    let row = first + SERIES_BYTES * file.series + POSITION_BYTES * below(random, file.positions);
    let quantity = u32::from_le_bytes(file.bytes[row + 8..row + 12].try_into().expect("Q"));
    let one_byte = (random.between(1, 255) as u32) << (8 * random.between(0, 2));
    let beside = quantity.wrapping_add(random.pick(&[0, 1, u32::MAX, 256, 65_536]));
    let number = weighted(random, &[(60, beside), (30, one_byte), (10, 0xFF_FFFF)]);
    file.bytes[row + 5..row + 8].copy_from_slice(&number.to_le_bytes()[..3]);
    true
}

/// Other counts, with the distance made to fit them.
fn counts_changed(random: &mut Random, file: &mut Damaged) -> bool {
    let Some(first) = file.first_of_trailer() else { return false };
    let beside = |count: usize, random: &mut Random| match random.between(0, 9) {
        0..=3 => count,
        4..=6 => count.saturating_sub(1),
        _ => count + 1,
    };
    let series = match random.between(0, 19) {
        0 => random.pick(&[0, 32, 33, 65_535]),
        _ => beside(file.series, random),
    };
    let positions = match random.between(0, 19) {
        0 => random.pick(&[0, 256, 257, 65_535]),
        _ => beside(file.positions, random),
    };
    // The last four bytes stay.
    file.bytes[first..first + 8].copy_from_slice(&trailer_for(series, positions)[..8]);
    true
}
