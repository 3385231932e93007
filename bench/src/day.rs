//! The day that is measured, and the accounts that are brought up to date with it.

use reference::day::Day;

use crate::load::load;

/// Of seed 1 PV is 4271, the upper barriers are at 4272 to 5271 and the lower ones at 1 to 4270: the day touches those of the
/// nearer half.
pub const DAY: Day = Day { series: 0, high: 4771, low: 2136, close: 4300 };

/// An account of n rows of one series, each with a kind of barrier at random or with none: the load of seed 1.
pub fn day_account(n: u32) -> Vec<u8> {
    load(1, u64::from(n))
}
