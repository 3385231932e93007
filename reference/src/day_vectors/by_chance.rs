//! Accounts and days by chance.

use super::{Cases, Expect, SEED};
use crate::day::{apply_day, Day};
use crate::random::Random;
use crate::reader::read_account;
use crate::sample::{sample_account, sample_day, some_knocked_out, Shape};
use crate::vectors::rows::sound;

const SMALL: Shape = Shape {
    series: (1, 3),
    positions: (1, 8),
    pv: (2, 60),
    quantity: (1, 9),
    m: (1, 9),
    fb_above_one: true,
};
const WIDE: Shape =
    Shape { series: (1, 4), pv: (1, 10_000_000), quantity: (1, 100_000), m: (1, 1_000), ..SMALL };
const MANY_SERIES: Shape = Shape { series: (30, 32), positions: (20, 40), ..SMALL };

/// A day, and now and then the same day again.
pub fn add(cases: &mut Cases) {
    let mut random = Random::new(SEED);
    for (group, shape, count) in [
        ("random, small prices", SMALL, 60),
        ("random, all prices", WIDE, 30),
        ("random, many series", MANY_SERIES, 10),
    ] {
        cases.begin(group);
        for number in 0..count {
            let draft = sample_account(&mut random, &shape);
            let file = some_knocked_out(&mut random, draft).bytes();
            let account = read_account(&file).expect("accepted");
            let day = sample_day(&mut random, &account);
            cases.add(number.to_string(), file.clone(), day, Expect::Open);
            if number % 4 == 0 {
                let mut after = file;
                apply_day(&mut after, &day).expect("applied");
                let unchanged = Expect::After(after.clone());
                cases.add(format!("{number}, again"), after, day, unchanged);
            }
        }
    }
}

/// Numbers about the limits and far beyond them.
pub fn add_wild(cases: &mut Cases) {
    cases.begin("random numbers");
    let mut random = Random::new(SEED + 1);
    let any_price = |random: &mut Random| match random.between(0, 9) {
        0 => random.draw(),
        1 => random.pick(&[0, 1, 9_999_999, 10_000_000, 10_000_001]),
        2 => 3000 + (1 << random.between(20, 63)),
        _ => random.between(2900, 3100) as u64,
    };
    for number in 0..60 {
        let series = match random.between(0, 9) {
            0 => random.draw(),
            1 => random.between(0, 2) as u64 + (1 << random.between(2, 63)),
            _ => random.between(0, 3) as u64,
        };
        let [high, low, close] = [0; 3].map(|_| any_price(&mut random));
        let day = Day { series, high, low, close };
        cases.add(number.to_string(), sound().bytes(), day, Expect::Open);
    }
}
