//! Reference for flexible option margin by circular 081/2003.
//!
//! An executable specification: every rule of the scope document stands here
//! once, in the document's own order and names, with plain algorithms. It
//! decides expected outputs; it is not meant to be fast.
//!
//! Reading order:
//!
//! 1. [`account`]: series, positions, fine units
//! 2. [`reader`] and [`position_row`]: bytes to account, or refusal
//! 3. [`position`]: unit margin and amount of one position
//! 4. [`spread`]: unit spread margin of a pair
//! 5. [`pairing`]: the repeated choice of pairs
//! 6. [`lines`]: lines and total
//! 7. [`output`]: what the programs print for a file
//! 8. [`paths`]: paths and payments, as the document defines them
//! 9. [`factors`]: fa and fb from the code and the days
//! 10. [`factors_list`]: what the factors program prints
//! 11. [`day`]: a file brought up to date after the close
//! 12. [`instalments`]: the pairs made a few at a time, the amount between, and
//!     the latest pairs taken apart
//! 13. [`instalment_cases`]: calls one after the other on one list, and what is
//!     printed for them
//! 14. [`load`]: an account made from a seed
//! 15. [`load_list`]: what the load program writes
//!
//! Then the tools: [`random`] (numbers from a seed), [`draft`] (files from
//! fields), [`sample`] (random accounts), [`brute_force`] (checks the four
//! points of the document's section on paths), [`vectors`] (test files with
//! their expected output), [`day_vectors`] and [`instalment_vectors`] (the same
//! for days and for instalments).

pub mod account;
pub mod day;
pub mod factors;
pub mod factors_list;
pub mod instalment_cases;
pub mod instalments;
pub mod lines;
pub mod load;
pub mod load_list;
pub mod output;
pub mod pairing;
pub mod paths;
pub mod position;
pub mod position_row;
pub mod reader;
pub mod spread;

pub mod brute_force;
pub mod day_vectors;
pub mod draft;
pub mod instalment_vectors;
pub mod random;
pub mod sample;
pub mod vectors;
