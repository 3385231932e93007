//! The list of all factors: what the factors program prints.

use crate::factors::{factors, MOST_DAYS};

/// Codes and days in the order of the list: every code with every number of
/// days and one more, then refused ones.
pub fn codes_and_days() -> impl Iterator<Item = (u64, u64)> {
    let of_code = |code| (0..=MOST_DAYS + 1).map(move |days| (code, days));
    (0..4).flat_map(of_code).chain([(4, 0), (u64::MAX, 0), (0, u64::MAX)])
}

/// A line of the list, with its line end.
pub fn factors_line(code: u64, days: u64) -> String {
    match factors(code, days) {
        Ok(given) => format!("{code} {days} {} {}\n", given.fa, given.fb),
        Err(refusal) => format!("{code} {days} refused {} {}\n", refusal.number, refusal.row),
    }
}

/// The whole list.
pub fn factors_list() -> String {
    codes_and_days().map(|(code, days)| factors_line(code, days)).collect()
}
