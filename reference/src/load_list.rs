//! The list of loads: what the load program writes.

use crate::load::{load, MOST_SEED};
use crate::reader::distance;

/// What every byte of a buffer holds before the call.
pub const BEFORE: u8 = 165;

/// What is asked for: a seed, p rows, and a buffer of so many bytes.
#[derive(Clone, Copy, Debug, PartialEq, Eq)]
pub struct Case {
    pub seed: u64,
    pub p: u64,
    pub room: usize,
}

/// The ends of both ranges; seeds over the whole range, with five bytes after
/// the file; and refused ones.
pub fn cases() -> Vec<Case> {
    let mut all: Vec<Case> = [1, MOST_SEED]
        .iter()
        .flat_map(|&seed| [(1, 68), (256, 8_228)].map(|(p, room)| Case { seed, p, room }))
        .collect();
    all.extend((1..=300).map(|k| {
        let p = 1 + k % 8;
        Case { seed: 7_158_278 * k, p, room: distance(1, p as usize) + 5 }
    }));
    all.extend(REFUSED);
    all
}

/// Each with a seed, a p or a buffer out of its range. Of 2^32 + 1 the low 32
/// bits would be in range. With 2^59 rows, 32 × p is a multiple of 2^64.
const REFUSED: [Case; 12] = [
    Case { seed: 0, p: 1, room: 68 },
    Case { seed: 2_147_483_647, p: 1, room: 68 },
    Case { seed: (1 << 32) + 1, p: 1, room: 68 },
    Case { seed: u64::MAX, p: 1, room: 68 },
    Case { seed: 1, p: 0, room: 68 },
    Case { seed: 1, p: 257, room: 8_300 },
    Case { seed: 1, p: (1 << 32) + 1, room: 8_300 },
    Case { seed: 1, p: u64::MAX, room: 8_300 },
    Case { seed: 1, p: 1 << 59, room: 68 },
    Case { seed: 1, p: 1, room: 67 },
    Case { seed: 1, p: 256, room: 8_227 },
    Case { seed: 1, p: 1, room: 0 },
];

/// A case of the list: `SEED P ROOM made BYTES` or `SEED P ROOM refused NUMBER
/// ROW` in a line, then the buffer's bytes after the call and a line feed.
pub fn load_output(case: &Case) -> Vec<u8> {
    let Case { seed, p, room } = *case;
    let mut buffer = vec![BEFORE; room];
    let outcome = match load(seed, p, &mut buffer) {
        Ok(bytes) => format!("made {bytes}"),
        Err(refusal) => format!("refused {} {}", refusal.number, refusal.row),
    };
    let line = format!("{seed} {p} {room} {outcome}\n");
    [line.as_bytes(), &buffer, b"\n"].concat()
}

/// The whole list.
pub fn load_list() -> Vec<u8> {
    cases().iter().flat_map(load_output).collect()
}
