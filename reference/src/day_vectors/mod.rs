//! Days, files for them, and the files that come of them.
//!
//! Every case says by itself whether it is to be refused, and else which rows
//! are to be flagged. That comes from the way the file was made and not from
//! the reader, so that the two check each other.

mod blocked;
mod by_chance;
mod cover_sheets;
mod flags;
mod many_rows;
mod prices;
mod readings;
mod rows;
mod series;
mod touches;

use crate::day::{day_output, Day};
use crate::draft::Draft;

/// Of the numbers drawn.
const SEED: u64 = 20_030_814;

#[derive(Clone, Debug, PartialEq, Eq)]
pub enum Expect {
    /// Applied, with these bytes after it.
    After(Vec<u8>),
    Refused(i64, usize),
    /// Made by chance: nothing is known beforehand.
    Open,
}

#[derive(Clone, Debug)]
pub struct DayCase {
    pub group: &'static str,
    pub name: String,
    pub day: Day,
    pub file: Vec<u8>,
    pub expect: Expect,
}

/// The cases so far, and the group of those to come.
struct Cases {
    list: Vec<DayCase>,
    group: &'static str,
}

impl Cases {
    fn begin(&mut self, group: &'static str) {
        self.group = group;
    }

    fn add(&mut self, name: impl Into<String>, file: Vec<u8>, day: Day, expect: Expect) {
        self.list.push(DayCase { group: self.group, name: name.into(), day, file, expect });
    }

    /// After the day these rows have their flag, whether or not they had it
    /// before, PV is the close, and all else is as it was.
    fn apply(&mut self, name: impl Into<String>, draft: &Draft, day: Day, touched: &[usize]) {
        let mut after = draft.clone();
        after.series[day.series as usize].pv = day.close as u32;
        for &row in touched {
            after.positions[row] = rows::marked(after.positions[row]);
        }
        self.add(name, draft.bytes(), day, Expect::After(after.bytes()));
    }

    fn refuse(
        &mut self,
        name: impl Into<String>,
        file: Vec<u8>,
        day: Day,
        number: i64,
        row: usize,
    ) {
        self.add(name, file, day, Expect::Refused(number, row));
    }
}

/// All cases, in a fixed order.
pub fn all_days() -> Vec<DayCase> {
    let mut cases = Cases { list: Vec::new(), group: "" };
    for add in [
        touches::add,
        flags::add,
        series::add,
        cover_sheets::add,
        cover_sheets::add_without_positions,
        many_rows::add,
        prices::add_ends,
        readings::add,
        series::add_refused,
        prices::add_refused,
        by_chance::add,
        by_chance::add_wild,
        blocked::add,
    ] {
        add(&mut cases);
    }
    cases.list
}

/// Each case as its length in four little-endian bytes, then the day as four
/// numbers of eight little-endian bytes, then the file's bytes.
pub fn stdin_bytes(cases: &[DayCase]) -> Vec<u8> {
    let mut bytes = Vec::new();
    for DayCase { day, file, .. } in cases {
        bytes.extend((32 + file.len() as u32).to_le_bytes());
        for number in [day.series, day.high, day.low, day.close] {
            bytes.extend(number.to_le_bytes());
        }
        bytes.extend(file);
    }
    bytes
}

/// What the day program writes for all of them.
pub fn stdout_bytes(cases: &[DayCase]) -> Vec<u8> {
    cases.iter().flat_map(|case| day_output(&case.file, &case.day)).collect()
}
