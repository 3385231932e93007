//! Series of long expiries, whose fb is above 1,000,000 (document 02 [11]).

use super::prices::ticks;
use super::HIGHEST;
use crate::draft::{
    Draft, PositionDraft, SeriesDraft, DOWN_AND_IN, DOWN_AND_OUT, HELD, PUT, UP_AND_IN, UP_AND_OUT,
    WRITTEN,
};
use crate::factors::{factors, MOST_DAYS};
use crate::position_row::FLAG_KNOCKED_IN;
use crate::random::Random;

/// The codes whose fb is above 1,000,000 for long expiries, and from how many
/// days on.
pub const LONG_EXPIRIES: [(u64, u64); 2] = [(0, 496), (2, 1_038)];

/// The same account with most of its series at a long expiry. Today's price
/// becomes lower, so that the one drawn lies between the new L and H: strikes
/// and limiters stay and are about there. Down barriers come below the new PV.
/// Each series has a price between L and H, and about half of its up barriers
/// come there or one tick beside it.
pub fn at_long_expiries(random: &mut Random, mut draft: Draft) -> Draft {
    for (number, series) in draft.series.iter_mut().enumerate() {
        if series.pv < 2 || random.chance(20) {
            continue;
        }
        let before = *series;
        *series = at_long_expiry(random, &before);
        let price = price_between(random, series);
        for row in draft.positions.iter_mut().filter(|row| row.series as usize == number) {
            if row.kind == DOWN_AND_IN || row.kind == DOWN_AND_OUT {
                row.barrier = lowered(row.barrier, &before, series);
            }
            if (row.kind == UP_AND_IN || row.kind == UP_AND_OUT) && random.chance(50) {
                let beside = price + random.between(-1, 1);
                row.barrier = beside.clamp(i64::from(series.pv) + 1, HIGHEST) as u32;
            }
            *row = seldom_excluded(random, series, *row);
        }
    }
    draft
}

/// The series with other factors and a PV of at least 2, below which there is a
/// price for down barriers.
fn at_long_expiry(random: &mut Random, series: &SeriesDraft) -> SeriesDraft {
    let (fa, fb) = long_factors(random);
    let between = match random.between(0, 9) {
        0 => fb,
        1 => fa,
        _ => random.between(fb, fa),
    };
    let pv = i64::from(series.pv) * 1_000_000 / between;
    SeriesDraft { pv: pv.max(2) as u32, fa: fa as u32, fb: fb as u32, ..*series }
}

/// fa and fb, fb above 1,000,000: of the circular's own codes, with little and
/// with much room between the two, and equal.
fn long_factors(random: &mut Random) -> (i64, i64) {
    match random.between(0, 9) {
        0..=2 => of_a_code(random),
        3 => (random.between(1_000_001, 2_000_000), 1_000_001),
        4 => {
            let both = random.pick(&[1_000_001, 1_100_000, 1_250_000, 2_000_000, 10_000_000]);
            (both, both)
        }
        5 => {
            let fb = random.between(1_000_001, 3_000_000);
            (random.between(fb, 10_000_000), fb)
        }
        _ => {
            let fa = random.pick(&[1_300_000, 1_500_000, 2_000_000, 3_000_000]);
            (fa, random.pick(&[1_001_000, 1_010_000, 1_050_000, 1_100_000, 1_250_000]))
        }
    }
}

/// By document 02 [2], now and then at two years.
fn of_a_code(random: &mut Random) -> (i64, i64) {
    let (code, first) = random.pick(&LONG_EXPIRIES);
    let days = match random.between(0, 3) {
        0 if first <= 720 => 720,
        1 => first,
        _ => random.between(first as i64, MOST_DAYS as i64) as u64,
    };
    let made = factors(code, days).expect("a code and days in their range");
    (made.fa, made.fb)
}

/// In whole ticks, often at L or H.
fn price_between(random: &mut Random, series: &SeriesDraft) -> i64 {
    let [low, high] = [series.fb, series.fa].map(|factor| ticks(series.pv, factor));
    match random.between(0, 3) {
        0 => low,
        1 => high,
        _ => random.between(low, high),
    }
}

/// A down barrier as far below PV as it was, in proportion, and at least 1.
fn lowered(barrier: u32, before: &SeriesDraft, after: &SeriesDraft) -> u32 {
    let lowered = u64::from(barrier) * u64::from(after.pv) / u64::from(before.pv);
    lowered.max(1) as u32
}

/// Of the rows that the proviso of document 02 [11] excludes one in five stays;
/// the others become held, or get flag 1.
fn seldom_excluded(random: &mut Random, series: &SeriesDraft, row: PositionDraft) -> PositionDraft {
    let knocked_in = row.flags & FLAG_KNOCKED_IN != 0;
    if series.type_byte != PUT || row.side != WRITTEN || row.kind != UP_AND_IN || knocked_in {
        return row;
    }
    match random.between(0, 9) {
        0 | 1 => row,
        2..=5 => PositionDraft { side: HELD, ..row },
        _ => row.knocked_in(),
    }
}
