//! Comparison of the library with the reference, on files made from a seed, and of all factors and
//! loads.
//!
//! Reading order:
//!
//! 1. [`files`]: the file of a number, from one of three families in turn
//! 2. [`random_files`], [`structured`], [`damage`]: the families
//! 3. [`list`]: the caller's list of lines, and entries beside it
//! 4. [`implementation`]: what both implementations are asked through
//! 5. [`questions`]: what is asked about a file
//! 6. [`days`]: the days that a file is brought up to date with
//! 7. [`instalments`]: lists, counts and allowances for pairing in instalments, and pairs taken apart
//! 8. [`codes_and_days`]: what the factors are asked for
//! 9. [`loads`]: the loads that are asked for
//! 10. [`lending`]: the memory in which the library gets a file or a buffer
//! 11. [`comparison`]: both answers to each question
//! 12. [`summary`]: what was compared
//! 13. [`changes`], [`changed_amounts`], [`changed_days`], [`changed_instalments`], [`changed_apart`],
//!     [`changed_blocked`] and [`changed_loads`]: deliberately changed answers, to see that they are
//!     found

pub mod changed_amounts;
pub mod changed_apart;
pub mod changed_blocked;
pub mod changed_days;
pub mod changed_instalments;
pub mod changed_loads;
pub mod changes;
pub mod codes_and_days;
pub mod comparison;
pub mod damage;
pub mod days;
pub mod files;
pub mod implementation;
pub mod instalments;
pub mod lending;
pub mod list;
pub mod loads;
pub mod questions;
pub mod random_files;
pub mod structured;
pub mod summary;

#[cfg(test)]
mod blocked_tests;
#[cfg(test)]
mod instalment_tests;
#[cfg(test)]
mod load_tests;
#[cfg(test)]
mod tests;
