//! Knock-outs of which some were touched on an earlier day.

use super::HIGHEST;
use crate::draft::{Draft, PositionDraft, SeriesDraft, DOWN_AND_OUT, UP_AND_OUT};
use crate::random::Random;

/// The same account with flag 16 on about half of its knock-outs.
pub fn some_knocked_out(random: &mut Random, mut draft: Draft) -> Draft {
    for row in &mut draft.positions {
        let knock_out = row.kind == UP_AND_OUT || row.kind == DOWN_AND_OUT;
        if knock_out && random.chance(50) {
            *row = knocked_out(random, &draft.series[row.series as usize], *row);
        }
    }
    draft
}

/// Touched: the barrier may stand anywhere. Mostly it stays, so that rows
/// remain the same as others.
fn knocked_out(random: &mut Random, series: &SeriesDraft, row: PositionDraft) -> PositionDraft {
    let highest = (3 * series.pv as i64).min(HIGHEST);
    let barrier = match random.between(0, 9) {
        0 | 1 => random.between(1, highest) as u32,
        2 => series.pv,
        _ => row.barrier,
    };
    PositionDraft { barrier, ..row.knocked_out() }
}
