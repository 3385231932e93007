//! What both implementations are asked through, in the form of the C header.

pub use library::{Answer, Factors, Line, Margin};
use reference::day::{apply_day, Day};
use reference::factors::factors;
use reference::instalment_cases::Call;
use reference::lines::{margin_into, premiums};
use reference::load::load;
use reference::position::one_position;
use reference::reader::Refusal;

use crate::list::List;

pub trait Implementation {
    /// The caller's list is the first `room` entries; those after it are not handed over.
    fn margin(&self, file: &[u8], entries: &mut [Line], room: usize) -> Margin;

    fn position_amount(&self, file: &[u8], row: u64) -> i64;

    fn premiums(&self, file: &[u8]) -> Answer;

    fn factors(&self, code: u64, days: u64) -> Factors;

    /// The file is left as it is after the day.
    fn day(&self, file: &mut [u8], day: &Day) -> Answer;

    /// A call about the pairs in the list, which is left as the call leaves it.
    fn call(&self, file: &[u8], list: &mut List, call: Call) -> Answer;

    /// The file that is made is left in the buffer.
    fn load(&self, seed: u64, p: u64, buffer: &mut [u8]) -> Answer;
}

pub struct Reference;

impl Implementation for Reference {
    fn margin(&self, file: &[u8], entries: &mut [Line], room: usize) -> Margin {
        match margin_into(file, &mut entries[..room]) {
            Ok((lines, total)) => {
                Margin { refusal: 0, row: 0, lines: lines as u64, total: total as u64 }
            }
            Err(refusal) => Margin {
                refusal: refusal.number as u64,
                row: refusal.row as u64,
                lines: 0,
                total: 0,
            },
        }
    }

    fn position_amount(&self, file: &[u8], row: u64) -> i64 {
        one_position(file, row)
    }

    fn premiums(&self, file: &[u8]) -> Answer {
        number_or_refusal(premiums(file).map(|value| value as u64))
    }

    fn factors(&self, code: u64, days: u64) -> Factors {
        match factors(code, days) {
            Ok(given) => Factors { refusal: 0, row: 0, fa: given.fa as u64, fb: given.fb as u64 },
            Err(refusal) => {
                Factors { refusal: refusal.number as u64, row: refusal.row as u64, fa: 0, fb: 0 }
            }
        }
    }

    fn day(&self, file: &mut [u8], day: &Day) -> Answer {
        number_or_refusal(apply_day(file, day).map(|()| 0))
    }

    fn call(&self, file: &[u8], list: &mut List, call: Call) -> Answer {
        number_or_refusal(call.answer(file, list.lines_mut()))
    }

    fn load(&self, seed: u64, p: u64, buffer: &mut [u8]) -> Answer {
        number_or_refusal(load(seed, p, buffer).map(|bytes| bytes as u64))
    }
}

fn number_or_refusal(answer: Result<u64, Refusal>) -> Answer {
    match answer {
        Ok(value) => Answer { refusal: 0, row: 0, value },
        Err(Refusal { number, row }) => {
            Answer { refusal: number as u64, row: row as u64, value: 0 }
        }
    }
}
