//! The paths that are tried: every path of up to a given length whose prices
//! come from a list of prices of interest.
//!
//! Where fb is above 1,000,000 every later price is above every earlier one, and
//! L is above PV. An up barrier is then touched exactly where the last price is
//! at or above it, and a down barrier, which is below PV, is not. What is paid
//! depends on the last price alone and is linear between prices of interest, so
//! that the paths of one price leave nothing out. Those of several prices are
//! tried all the same.

use crate::account::{fine, Account, Limiter, Series, MILLION};
use crate::paths::{is_path, may_follow, nearest_following};

/// Prices from L to H at which something may change: L, H, PV, strikes,
/// limiters, barriers and one fine unit beside them, and the farthest prices
/// that can follow a barrier. Where fb is above 1,000,000 also the nearest price
/// that can follow each of these; the farthest is H after all of them.
pub fn prices_of_interest(account: &Account, number: usize) -> Vec<i64> {
    let series = &account.series[number];
    let mut prices = vec![series.low(), series.high(), fine(series.pv)];
    for position in account.positions.iter().filter(|p| p.series == number) {
        let terms = position.terms();
        prices.push(fine(terms.strike));
        if let Limiter::At(price) = terms.limiter {
            prices.push(fine(price));
        }
        if let Some(price) = terms.barrier.price() {
            prices.extend([fine(price) - 1, fine(price), fine(price) + 1]);
            // The farthest prices after the barrier is met exactly.
            prices.extend([price * series.fa, price * series.fb]);
        }
    }
    prices.retain(|&price| series.low() <= price && price <= series.high());
    if series.fb > MILLION {
        let following: Vec<i64> = prices.iter().map(|&p| nearest_following(series, p)).collect();
        prices.extend(following.into_iter().filter(|&price| price <= series.high()));
    }
    prices.sort();
    prices.dedup();
    prices
}

/// Every path of up to `longest` of the given prices.
pub fn walk(
    series: &Series,
    prices: &[i64],
    path: &mut Vec<i64>,
    longest: usize,
    visit: &mut dyn FnMut(&[i64]),
) {
    for &price in prices {
        if !path.iter().all(|&earlier| may_follow(series, earlier, price)) {
            continue;
        }
        path.push(price);
        debug_assert!(is_path(series, path));
        visit(path);
        if path.len() < longest {
            walk(series, prices, path, longest, visit);
        }
        path.pop();
    }
}
