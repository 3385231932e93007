//! The library that the program is linked with.

use compare::implementation::{Answer, Factors, Implementation, Line, Margin};
use compare::list::List;
use reference::day::Day;
use reference::instalment_cases::Call;

pub struct Library;

impl Implementation for Library {
    fn margin(&self, file: &[u8], entries: &mut [Line], room: usize) -> Margin {
        library::margin(file, &mut entries[..room])
    }

    fn position_amount(&self, file: &[u8], row: u64) -> i64 {
        library::position_amount(file, row)
    }

    fn premiums(&self, file: &[u8]) -> Answer {
        library::premiums(file)
    }

    fn factors(&self, code: u64, days: u64) -> Factors {
        library::factors(code, days)
    }

    fn day(&self, file: &mut [u8], day: &Day) -> Answer {
        let Day { series, high, low, close } = *day;
        library::day(file, series, high, low, close)
    }

    fn call(&self, file: &[u8], list: &mut List, call: Call) -> Answer {
        let lines = list.lines_mut();
        match call {
            Call::Pair { count, allowance } => library::pair(file, lines, count, allowance),
            Call::Amount { count } => library::amount_so_far(file, lines, count),
            Call::Apart { count, k } => library::take_apart(file, lines, count, k),
        }
    }

    fn load(&self, seed: u64, p: u64, buffer: &mut [u8]) -> Answer {
        library::load(seed, p, buffer)
    }
}
