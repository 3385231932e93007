//! Paths and payments, word for word.

use std::cmp::{max, min};

use crate::account::{fine, Barrier, Limiter, OptionType, Series, Terms, MILLION};

/// May price q come later than price p on a path?
pub fn may_follow(series: &Series, p: i64, q: i64) -> bool {
    let product = |price: i64, factor: i64| i128::from(price) * i128::from(factor);
    product(p, series.fb) <= product(q, MILLION) && product(q, MILLION) <= product(p, series.fa)
}

/// The nearest price that may follow price p where fb is above 1,000,000, so that
/// prices rise: p × fb / 1,000,000, rounded up.
pub fn nearest_following(series: &Series, p: i64) -> i64 {
    let (exact, million) = (i128::from(p) * i128::from(series.fb), i128::from(MILLION));
    ((exact + million - 1) / million) as i64
}

/// A path is a non-empty list of prices in whole fine units, each from L to H,
/// and every later price is bound by every earlier one.
pub fn is_path(series: &Series, prices: &[i64]) -> bool {
    if prices.is_empty() {
        return false;
    }
    for (i, &p) in prices.iter().enumerate() {
        if p < series.low() || p > series.high() {
            return false;
        }
        for &q in &prices[i + 1..] {
            if !may_follow(series, p, q) {
                return false;
            }
        }
    }
    true
}

/// What a position pays per unit at the end of a path, in fine units.
pub fn payment(option_type: OptionType, terms: &Terms, prices: &[i64]) -> i64 {
    let touched_up = |price: i64| prices.iter().any(|&x| x >= fine(price));
    let touched_down = |price: i64| prices.iter().any(|&x| x <= fine(price));
    let alive_after_path = match terms.barrier {
        Barrier::None => true,
        Barrier::UpAndIn(price) => touched_up(price),
        Barrier::DownAndIn(price) => touched_down(price),
        Barrier::UpAndOut(price) => !touched_up(price),
        Barrier::DownAndOut(price) => !touched_down(price),
    };
    // Document 02 [5]: REB on every path.
    if terms.knocked_out || !alive_after_path {
        return fine(terms.rebate);
    }
    let last = prices[prices.len() - 1];
    let pe = fine(terms.strike);
    match (option_type, terms.limiter) {
        (OptionType::Call, Limiter::Absent) => max(0, last - pe),
        (OptionType::Call, Limiter::At(pb)) => max(0, min(fine(pb), last) - pe),
        (OptionType::Put, Limiter::Absent) => max(0, pe - last),
        (OptionType::Put, Limiter::At(pb)) => max(0, pe - max(fine(pb), last)),
    }
}
