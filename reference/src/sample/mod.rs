//! Random accounts that are always accepted. Prices are drawn close together
//! and often reused, so that equal prices, barriers met exactly, ties and
//! pairs come up often.

mod blocked;
mod days;
mod knock_outs;
mod limiters;
mod long_expiries;
mod prices;

pub use blocked::{sample_blocked, some_blocked};
pub use days::sample_day;
pub use knock_outs::some_knocked_out;
pub use limiters::limited_alike;
pub use long_expiries::{at_long_expiries, LONG_EXPIRIES};

use crate::draft::{
    Draft, PositionDraft, SeriesDraft, CALL, DOWN_AND_IN, DOWN_AND_OUT, HELD, NO_BARRIER, PUT,
    UP_AND_IN, UP_AND_OUT, WRITTEN,
};
use crate::position_row::FLAG_LIMITER;
use crate::random::Random;
use prices::{sample_barrier, sample_limiter, sample_rebate, sample_strike};

/// The highest price, in ticks.
const HIGHEST: i64 = 10_000_000;
/// Kinds of barrier, as often as they are drawn.
const KINDS: [u8; 8] = [
    NO_BARRIER,
    NO_BARRIER,
    UP_AND_IN,
    DOWN_AND_IN,
    UP_AND_OUT,
    UP_AND_OUT,
    DOWN_AND_OUT,
    DOWN_AND_OUT,
];

/// What a random account may look like. Ranges include both ends.
#[derive(Clone, Copy, Debug)]
pub struct Shape {
    pub series: (i64, i64),
    pub positions: (i64, i64),
    pub pv: (i64, i64),
    pub quantity: (i64, i64),
    pub m: (i64, i64),
    /// May fb be above 1,000,000?
    pub fb_above_one: bool,
}

/// With M up to 1,000, so that what rounding adds is small beside the amounts.
pub const SMALL: Shape = Shape {
    series: (1, 2),
    positions: (1, 7),
    pv: (2, 60),
    quantity: (1, 5),
    m: (1, 1_000),
    fb_above_one: false,
};
/// Larger numbers, beside which it is smaller still.
pub const WIDE: Shape = Shape { pv: (1, 10_000_000), quantity: (1, 100_000), ..SMALL };

pub fn sample_account(random: &mut Random, shape: &Shape) -> Draft {
    let series_count = random.between(shape.series.0, shape.series.1);
    let position_count = random.between(shape.positions.0, shape.positions.1);

    let series: Vec<SeriesDraft> =
        (0..series_count).map(|_| sample_series(random, shape)).collect();

    let mut positions: Vec<PositionDraft> = Vec::new();
    for _ in 0..position_count {
        let number = random.between(0, series_count - 1) as u16;
        let row = sample_position(random, shape, number, &series[number as usize], &positions);
        positions.push(row);
    }
    Draft::new(series, positions)
}

pub fn sample_series(random: &mut Random, shape: &Shape) -> SeriesDraft {
    let pv = random.between(shape.pv.0, shape.pv.1);
    let fa = match random.between(0, 9) {
        0 => 1_000_000,
        1 => 10_000_000,
        2 | 3 => random.between(1_000_000, 1_300_000),
        4 => random.between(1_000_000, 10_000_000),
        _ => random.pick(&[1_050_000, 1_100_000, 1_200_000, 1_250_000, 1_500_000, 2_000_000]),
    };
    let fb = match random.between(0, 9) {
        0 => 0,
        1 => 1_000_000,
        2 | 3 => random.between(700_000, 1_000_000),
        4 => random.between(0, 1_000_000),
        5 if shape.fb_above_one => random.between(1_000_000, fa),
        6 if shape.fb_above_one => fa,
        _ => random.pick(&[500_000, 750_000, 800_000, 900_000, 950_000]),
    };
    let f3 = match random.between(0, 9) {
        0..=2 => 0,
        3 => random.between(0, 1_000_000),
        4 => 1_000_000,
        _ => random.pick(&[1, 10_000, 50_000, 123_457, 200_000]),
    };
    SeriesDraft {
        pv: pv as u32,
        fa: fa as u32,
        fb: fb as u32,
        f3: f3 as u32,
        m: random.between(shape.m.0, shape.m.1) as u32,
        type_byte: random.pick(&[CALL, PUT]),
        spare: [0; 3],
    }
}

fn sample_position(
    random: &mut Random,
    shape: &Shape,
    number: u16,
    series: &SeriesDraft,
    earlier: &[PositionDraft],
) -> PositionDraft {
    let side = random.pick(&[HELD, WRITTEN]);
    let quantity = random.between(shape.quantity.0, shape.quantity.1) as u32;
    let strike = sample_strike(random, series);
    let plain = PositionDraft::plain(number, side, strike, quantity);
    let alike: Vec<PositionDraft> =
        earlier.iter().filter(|e| e.series == number).copied().collect();
    let mut row = if !alike.is_empty() && random.chance(45) {
        let like = random.pick(&alike);
        row_alike(random, series, plain, like)
    } else {
        new_row(random, series, plain)
    };

    row = match random.between(0, 9) {
        0 => row.style(false, false),
        1 => row.style(false, true),
        2 => row.style(true, true),
        _ => row.style(true, false),
    };
    if row.side == HELD && random.chance(40) {
        row.premium = match random.between(0, 9) {
            0 => HIGHEST as u32,
            _ => random.between(1, 60) as u32,
        };
    }
    row
}

/// An earlier row of the series, mostly with the other side, and now and then
/// with another strike, rebate or barrier price.
fn row_alike(
    random: &mut Random,
    series: &SeriesDraft,
    plain: PositionDraft,
    like: PositionDraft,
) -> PositionDraft {
    let side = if random.chance(75) { 1 - like.side } else { like.side };
    let mut row = PositionDraft { side, quantity: plain.quantity, premium: 0, ..like };
    if random.chance(50) && row.flags & FLAG_LIMITER == 0 {
        row.strike = plain.strike;
    }
    if random.chance(30) && row.kind != NO_BARRIER {
        row.rebate = sample_rebate(random, series);
    }
    if random.chance(30) && row.kind != NO_BARRIER {
        if let Some(price) = sample_barrier(random, series, row.kind) {
            row.barrier = price;
        }
    }
    row
}

/// The plain row, often with a limiter or a barrier.
fn new_row(random: &mut Random, series: &SeriesDraft, plain: PositionDraft) -> PositionDraft {
    let mut row = plain;
    if random.chance(25) {
        if let Some(price) = sample_limiter(random, series, row.strike) {
            row = row.with_limiter(price);
        }
    }
    let kind = random.pick(&KINDS);
    let knock_in = kind == UP_AND_IN || kind == DOWN_AND_IN;
    if kind == NO_BARRIER {
        row
    } else if knock_in && random.chance(30) {
        // Already knocked in: the barrier may stand anywhere.
        let price = random.between(1, (3 * series.pv as i64).min(HIGHEST)) as u32;
        let rebate = sample_rebate(random, series);
        row.with_barrier(kind, price, rebate).knocked_in()
    } else if let Some(price) = sample_barrier(random, series, kind) {
        let rebate = sample_rebate(random, series);
        row.with_barrier(kind, price, rebate)
    } else {
        row
    }
}
