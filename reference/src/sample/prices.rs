//! Random prices of a position, close together and often at or beside the
//! stressed prices.

use super::HIGHEST;
use crate::draft::{SeriesDraft, CALL, UP_AND_IN, UP_AND_OUT};
use crate::random::Random;

/// A step between neighbouring strikes.
fn step(series: &SeriesDraft) -> i64 {
    (series.pv as i64 / 20).max(1)
}

fn clamp(least: i64, value: i64, most: i64) -> u32 {
    value.max(least).min(most) as u32
}

pub fn sample_strike(random: &mut Random, series: &SeriesDraft) -> u32 {
    let pv = series.pv as i64;
    match random.between(0, 19) {
        0 => random.between(1, HIGHEST) as u32,
        1 => 1,
        2 => clamp(1, ticks(series.pv, series.fa) + random.between(-1, 1), HIGHEST),
        3 => clamp(1, ticks(series.pv, series.fb) + random.between(-1, 1), HIGHEST),
        _ => clamp(1, pv + random.between(-6, 6) * step(series), HIGHEST),
    }
}

/// Whole ticks of PV × factor.
pub fn ticks(pv: u32, factor: u32) -> i64 {
    pv as i64 * factor as i64 / 1_000_000
}

pub fn sample_limiter(random: &mut Random, series: &SeriesDraft, strike: u32) -> Option<u32> {
    let strike = strike as i64;
    let far = random.between(1, 6) * step(series);
    if series.type_byte == CALL {
        if strike >= HIGHEST {
            return None;
        }
        Some(clamp(strike + 1, strike + far, HIGHEST))
    } else if random.chance(20) {
        Some(0)
    } else {
        Some(clamp(0, strike - far, strike - 1))
    }
}

pub fn sample_barrier(random: &mut Random, series: &SeriesDraft, kind: u8) -> Option<u32> {
    let pv = series.pv as i64;
    let up = kind == UP_AND_IN || kind == UP_AND_OUT;
    if up {
        if pv >= HIGHEST {
            return None;
        }
        let edge = ticks(series.pv, series.fa);
        let price = match random.between(0, 3) {
            0 => edge + random.between(-1, 1),
            1 => edge,
            2 => pv + random.between(1, 6) * step(series),
            _ => random.between(pv + 1, (2 * edge).max(pv + 1)),
        };
        Some(clamp(pv + 1, price, HIGHEST))
    } else {
        if pv <= 1 {
            return None;
        }
        let edge = ticks(series.pv, series.fb);
        let price = match random.between(0, 3) {
            0 => edge + random.between(-1, 1),
            1 => edge,
            2 => pv - random.between(1, 6) * step(series),
            _ => random.between(1, pv - 1),
        };
        Some(clamp(1, price, pv - 1))
    }
}

pub fn sample_rebate(random: &mut Random, series: &SeriesDraft) -> u32 {
    match random.between(0, 9) {
        0..=2 => 0,
        3 => clamp(0, series.pv as i64 * 2, HIGHEST),
        4 => random.pick(&[1, 2]),
        _ => random.between(0, series.pv as i64 / 4 + 1) as u32,
    }
}
