//! Held contracts of which some are pledged elsewhere (document 02 [9]).

use crate::draft::{Draft, PositionDraft, HELD};
use crate::random::Random;

/// The same account with contracts of most held rows blocked.
pub fn some_blocked(random: &mut Random, mut draft: Draft) -> Draft {
    for row in draft.positions.iter_mut().filter(|row| row.side == HELD) {
        row.blocked = sample_blocked(random, row);
    }
    draft
}

/// None, one, all but one, all, or any number between.
pub fn sample_blocked(random: &mut Random, row: &PositionDraft) -> u32 {
    match random.between(0, 9) {
        0 | 1 => 0,
        2 | 3 => 1,
        4 | 5 => row.quantity - 1,
        6 => row.quantity,
        _ => random.between(0, row.quantity.into()) as u32,
    }
}
