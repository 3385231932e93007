//! Ways of choosing the pairs of an account, and the accounts that they are measured on. Reading, rules, lines and total
//! are the reference's, the accounts at random are the library's load. Beside them the factors from the days, a day and its
//! accounts, the instalments of a pairing, and how calls are timed.

pub mod day;
pub mod factors;
pub mod instalments;
pub mod load;
pub mod shapes;
pub mod small;
pub mod timing;
pub mod ways;

#[cfg(test)]
mod tests;

use library::LONGEST_LIST;
use reference::lines::Entry;
use reference::reader::Refusal;

/// A list that is long enough for every account.
pub type List = [Entry; LONGEST_LIST];

/// A list of zeros.
#[inline]
pub fn empty() -> List {
    [[0; 5]; LONGEST_LIST]
}

/// The number of pairs in a list of lines.
pub fn pairs_in(list: &[Entry]) -> usize {
    list.iter().filter(|entry| entry[0] == 1).count()
}

/// The value of one of the library's answers, or the refusal.
#[inline]
pub fn value(answer: library::Answer) -> Result<u64, Refusal> {
    match answer.refusal {
        0 => Ok(answer.value),
        number => Err(Refusal { number: number as i64, row: answer.row as usize }),
    }
}
