//! Factors from the days (document 02, request 2).
//!
//! fa and fb by the annex's formulas for FR_A and FR_B, from a code row of the
//! circular and n, the days to expiry. Rates, daily factors and growth are
//! whole units of 10^-8, S, fa and fb whole millionths.

use crate::reader::Refusal;

/// A code row of the circular, its numbers in 10^-4: the rate i/100, F1, F2
/// and F4.
#[derive(Clone, Copy, Debug, PartialEq, Eq)]
pub struct CodeRow {
    pub i: i64,
    pub f1: i64,
    pub f2: i64,
    pub f4: i64,
}

pub const FCI: CodeRow = CodeRow { i: 2_100, f1: 1_200, f2: 1_100, f4: 1_000 };
pub const FPI: CodeRow = CodeRow { i: 2_100, f1: 2_400, f2: 2_200, f4: 1_000 };
pub const OFC: CodeRow = CodeRow { i: 1_600, f1: 1_500, f2: 1_200, f4: 1_500 };
pub const OFV: CodeRow = CodeRow { i: 1_600, f1: 3_000, f2: 2_400, f4: 1_500 };

/// By their codes, 0 to 3.
pub const CODE_ROWS: [CodeRow; 4] = [FCI, FPI, OFC, OFV];

/// The most days.
pub const MOST_DAYS: u64 = 1_800;

/// The days of a year, as the annex counts them.
pub const YEAR: i64 = 360;

/// One, as a rate, a daily factor or a growth.
pub const ONE: i64 = 100_000_000;

/// One in the scale of F2 × S, 10^-10.
const ONE_BESIDE_ROOT: i64 = 10_000_000_000;

#[derive(Clone, Copy, Debug, PartialEq, Eq)]
pub struct Factors {
    pub fa: i64,
    pub fb: i64,
}

#[derive(Clone, Copy, Debug, PartialEq, Eq)]
pub struct DailyFactors {
    pub high: i64,
    pub low: i64,
}

#[derive(Clone, Copy, Debug, PartialEq, Eq)]
pub enum Rounding {
    Up,
    Down,
}

/// The call: the factors of a code and a number of days. A code above 3 and
/// days above 1,800 are refusal 14.
pub fn factors(code: u64, days: u64) -> Result<Factors, Refusal> {
    if days > MOST_DAYS || code > 3 {
        return Err(Refusal { number: 14, row: 0 });
    }
    let row = &CODE_ROWS[code as usize];
    let n = days as i64;
    Ok(factors_by(row, daily_factors(row), root(n), n))
}

/// The factors of a code row with its daily factors, and of n with S(n).
pub fn factors_by(row: &CodeRow, daily: DailyFactors, s: i64, n: i64) -> Factors {
    let high = growth(daily.high, n, Rounding::Up);
    let low = growth(daily.low, n, Rounding::Down);
    Factors { fa: high_factor(row, high, s), fb: low_factor(row, low, s) }
}

/// S(n): the least whole number with S × S × 360 ≥ n × 10^12.
pub fn root(n: i64) -> i64 {
    // 10 is above the root of 1,800 / 360.
    least(10_000_000, |s| s * s * YEAR >= n * 1_000_000_000_000)
}

/// ga, the base rate of the high growth.
pub fn high_rate(row: &CodeRow) -> i64 {
    ONE + row.i * (10_000 + row.f1)
}

/// gb, the base rate of the low growth.
pub fn low_rate(row: &CodeRow) -> i64 {
    ONE + row.i * (10_000 - row.f1)
}

/// The high one is the least d for which 360 multiplications, each rounded
/// down, reach ga. The low one is the greatest d for which 360, each rounded
/// up, stay at or below gb: one less than the least for which they pass it.
/// From one, multiplications by one or more never fall and by less never rise,
/// so that the last one tells.
pub fn daily_factors(row: &CodeRow) -> DailyFactors {
    let (ga, gb) = (high_rate(row), low_rate(row));
    // 1.01 to the power 360 is above 35, and no base rate reaches 3.
    let most = 101_000_000;
    DailyFactors {
        high: least(most, |d| growth(d, YEAR, Rounding::Down) >= ga),
        low: least(most, |d| growth(d, YEAR, Rounding::Up) > gb) - 1,
    }
}

/// So many multiplications by d, from one.
pub fn growth(d: i64, times: i64, rounding: Rounding) -> i64 {
    (0..times).fold(ONE, |x, _| multiplied(x, d, rounding))
}

/// x × d / 10^8, rounded.
fn multiplied(x: i64, d: i64, rounding: Rounding) -> i64 {
    let exact = x * d;
    let whole = exact / ONE;
    match rounding {
        Rounding::Up if whole * ONE < exact => whole + 1,
        _ => whole,
    }
}

/// fa: growth × (1 + F2 × S) + F4, rounded up once to a millionth.
fn high_factor(row: &CodeRow, growth: i64, s: i64) -> i64 {
    let product = i128::from(growth) * i128::from(ONE_BESIDE_ROOT + row.f2 * s);
    millionths(product + beside_product(row.f4), Rounding::Up)
}

/// fb: growth × (1 − F2 × S) − F4, rounded down once to a millionth, and at
/// least 0.
fn low_factor(row: &CodeRow, growth: i64, s: i64) -> i64 {
    let product = i128::from(growth) * i128::from(ONE_BESIDE_ROOT - row.f2 * s);
    millionths(product - beside_product(row.f4), Rounding::Down).max(0)
}

/// F4 in the scale of growth × F2 × S, 10^-18.
fn beside_product(f4: i64) -> i128 {
    i128::from(f4) * 100_000_000_000_000
}

/// From the scale 10^-18 to millionths, rounded.
fn millionths(exact: i128, rounding: Rounding) -> i64 {
    let millionth = 1_000_000_000_000;
    let whole = exact.div_euclid(millionth);
    let rounded = match rounding {
        Rounding::Up if whole * millionth < exact => whole + 1,
        _ => whole,
    };
    rounded as i64
}

/// The least whole number for which the condition holds. It must hold for
/// every number above that one, up to `most`, and for no number below it.
fn least(most: i64, holds: impl Fn(i64) -> bool) -> i64 {
    assert!(holds(most));
    let (mut first, mut last) = (0, most);
    while first < last {
        let middle = (first + last) / 2;
        if holds(middle) {
            last = middle;
        } else {
            first = middle + 1;
        }
    }
    last
}
