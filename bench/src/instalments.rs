//! The instalments that are measured.

/// The most pairs that a call makes.
pub const ALLOWANCE: u64 = 8;

/// The count that each call begins with, for so many pairs, up to the call that makes fewer than it is allowed.
pub fn counts(pairs: usize) -> impl Iterator<Item = u64> {
    (0..=pairs as u64).step_by(ALLOWANCE as usize)
}
