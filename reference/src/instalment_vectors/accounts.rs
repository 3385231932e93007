//! The accounts that most cases are made of, with their lines and amounts
//! worked out by hand.

use crate::draft::{Draft, PositionDraft, CALL};
use crate::lines::Entry;
use crate::vectors::rows::{held, one_series, written};

/// The lines of an account's margin and its amount after each number of pairs.
pub struct Known {
    pub draft: Draft,
    pub pairs: Vec<Entry>,
    pub left: Vec<Entry>,
    pub amounts: Vec<u64>,
}

impl Known {
    /// All lines of the margin.
    pub fn lines(&self) -> Vec<Entry> {
        [&self.pairs[..], &self.left].concat()
    }
}

/// The account of the document's example output.
pub fn document() -> Known {
    Known {
        draft: crate::draft::example(),
        pairs: vec![[1, 0, 2, 3, 0], [1, 0, 1, 4, 3000]],
        left: vec![[2, 0, 3, 7500, 0]],
        amounts: vec![25_300, 17_800, 10_800],
    }
}

/// Three pairs of one written row, whose unit margin is 600 ticks, 3,000
/// centavos a contract. The premium is 70 centavos. 10 ticks of one contract
/// are 50 centavos, rounded up to 100; 20 ticks of three are 300.
pub fn three_pairs() -> Known {
    let rows = vec![
        written(0, 3000, 10),
        held(0, 3010, 1),
        held(0, 3000, 2).with_premium(7),
        held(0, 3020, 3),
    ];
    Known {
        draft: one_series(CALL, rows),
        pairs: vec![[1, 0, 2, 2, 0], [1, 0, 1, 1, 100], [1, 0, 3, 3, 300]],
        left: vec![[2, 0, 4, 12_000, 0]],
        amounts: vec![30_070, 24_070, 21_170, 12_470],
    }
}

/// One written row against so many held ones, each of which makes a pair, the
/// last row first. The difference of the strikes stays below the unit margin of
/// 600 ticks.
pub fn one_against(held_rows: u32) -> Draft {
    let row = |number: u32| -> PositionDraft {
        held(0, 3000 + held_rows - number, 1 + number % 7).with_premium(number % 3)
    };
    let rows = std::iter::once(written(0, 3000, 100_000)).chain((0..held_rows).map(row));
    one_series(CALL, rows.collect())
}
