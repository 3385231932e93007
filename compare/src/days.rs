//! The days that a file is asked to be brought up to date with.

use reference::account::Account;
use reference::day::Day;
use reference::random::Random;
use reference::sample::sample_day;

use crate::files::weighted;

const HIGHEST: u64 = 10_000_000;

/// Of each accepted file, so many days in order and so many others.
const OF_EACH: usize = 2;

/// For a file that is refused, whatever the day.
const ANY: Day = Day { series: 0, high: 9_000, low: 100, close: 3_000 };

/// The account is given where the file is accepted.
pub fn days(seed: u64, account: Option<&Account>) -> Vec<Day> {
    // Other numbers than those that decide the questions.
    let mut random = Random::new(!seed);
    let Some(account) = account else {
        return vec![ANY, spoiled(&mut random, ANY, 1)];
    };
    let mut all = Vec::new();
    for _ in 0..OF_EACH {
        let day = sample_day(&mut random, account);
        let series = account.series.len() as u64;
        all.extend([day, spoiled(&mut random, day, series)]);
    }
    all
}

/// The day with one to three of its numbers changed. Of some the low bits are as before.
fn spoiled(random: &mut Random, day: Day, series_count: u64) -> Day {
    let mut day = day;
    for _ in 0..random.between(1, 3) {
        let beside =
            |price: u64, random: &mut Random| price.wrapping_add_signed(random.pick(&[1, -1]));
        match random.between(0, 9) {
            0 | 1 => day.series = other_series(random, day.series, series_count),
            2 => day.high = other_price(random, day.high),
            3 => day.low = other_price(random, day.low),
            4 => day.close = other_price(random, day.close),
            5 => (day.high, day.low) = (day.low, day.high),
            6 => day.close = beside(day.high, random),
            7 => day.close = beside(day.low, random),
            8 => day.high = beside(day.low, random),
            _ => day.low = beside(day.high, random),
        }
    }
    day
}

fn other_series(random: &mut Random, series: u64, count: u64) -> u64 {
    let (above, any) = (count + random.between(0, 3) as u64, random.draw());
    let bit = 1 << random.between(5, 63);
    weighted(random, &[(40, above), (40, series ^ bit), (20, any)])
}

fn other_price(random: &mut Random, price: u64) -> u64 {
    let (any, bit) = (random.draw(), 1 << random.between(0, 63));
    let end = random.pick(&[0, 1, HIGHEST, HIGHEST + 1, u64::MAX]);
    weighted(random, &[(40, end), (40, price ^ bit), (20, any)])
}
