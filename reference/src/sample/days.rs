//! Days at random: often at a barrier of the series, or one tick beside it.

use super::HIGHEST;
use crate::account::Account;
use crate::day::Day;
use crate::random::Random;

/// A day that is accepted, of a series of the account.
pub fn sample_day(random: &mut Random, account: &Account) -> Day {
    let series = random.between(0, account.series.len() as i64 - 1) as usize;
    let of_series = account.positions.iter().filter(|position| position.series == series);
    let barriers: Vec<i64> = of_series.filter_map(|position| position.barrier.price()).collect();

    let mut prices = [0; 2].map(|_| price_about(random, account.series[series].pv, &barriers));
    prices.sort();
    let [low, high] = prices;
    let close = match random.between(0, 3) {
        0 => low,
        1 => high,
        _ => random.between(low, high),
    };
    Day { series: series as u64, high: high as u64, low: low as u64, close: close as u64 }
}

fn price_about(random: &mut Random, pv: i64, barriers: &[i64]) -> i64 {
    let price = match random.between(0, 9) {
        0 => random.between(1, HIGHEST),
        1 => random.between(1, 2 * pv),
        2 => pv,
        _ if barriers.is_empty() => pv + random.between(-9, 9),
        _ => random.pick(barriers) + random.between(-1, 1),
    };
    price.clamp(1, HIGHEST)
}
