//! Limiters at and beside each other, so that they come up on both sides of a
//! pair, equal and one tick apart.

use super::prices::{sample_limiter, sample_strike};
use super::HIGHEST;
use crate::draft::{Draft, PositionDraft, SeriesDraft, CALL};
use crate::position_row::FLAG_LIMITER;
use crate::random::Random;

/// The same account with other limiters. Each series has a price, and its rows
/// have a limiter there or one tick beside it, or none, or keep what they have.
pub fn limited_alike(random: &mut Random, mut draft: Draft) -> Draft {
    for (number, series) in draft.series.iter().enumerate() {
        let strike = sample_strike(random, series);
        let Some(price) = sample_limiter(random, series, strike) else { continue };
        for row in draft.positions.iter_mut().filter(|row| row.series as usize == number) {
            *row = match random.between(0, 9) {
                0 | 1 => *row,
                2 | 3 => without_limiter(*row),
                _ => limited_beside(random, series, *row, price),
            };
        }
    }
    draft
}

fn without_limiter(row: PositionDraft) -> PositionDraft {
    PositionDraft { flags: row.flags & !FLAG_LIMITER, limiter: 0, ..row }
}

/// The row with a limiter at the price or one tick beside it, where its strike
/// leaves room for one.
fn limited_beside(
    random: &mut Random,
    series: &SeriesDraft,
    row: PositionDraft,
    price: u32,
) -> PositionDraft {
    let limiter = i64::from(price) + random.between(-1, 1);
    let strike = i64::from(row.strike);
    let allowed = if series.type_byte == CALL {
        strike < limiter && limiter <= HIGHEST
    } else {
        0 <= limiter && limiter < strike
    };
    if allowed {
        row.with_limiter(limiter as u32)
    } else {
        row
    }
}
