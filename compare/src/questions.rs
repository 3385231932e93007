//! What is asked: about a file, for the factors, or for a load.

use reference::day::Day;
use reference::instalment_cases::Call;
use reference::random::Random;

use crate::loads::Load;

#[derive(Clone, Copy, Debug, PartialEq, Eq)]
pub enum Question {
    /// The margin, into a list of so many entries.
    Margin { room: usize },
    /// The amount of one row.
    Amount { row: u64 },
    /// The premiums of all held rows.
    Premiums,
    /// The factors, about no file.
    Factors { code: u64, days: u64 },
    /// The file after a day.
    Day(Day),
    /// The file after the same day once more.
    SameDay(Day),
    /// Pairs in instalments, the amount so far or pairs taken apart, with a list of so many entries.
    Instalment { room: usize, call: Call },
    /// A load, about no file.
    Load(Load),
}

/// A question, and what it is asked for.
pub type Purpose = (Question, &'static str);

/// All rows are asked for, and both large enough lists are tried, up to this many rows.
const FEW_ROWS: usize = 12;

/// Entries of a list that is long enough for every account.
const ENOUGH: usize = library::LONGEST_LIST;

/// What is asked about a file. The position count is given where the file is accepted.
pub fn questions(seed: u64, position_count: Option<usize>) -> Vec<Purpose> {
    let mut random = Random::new(seed);
    let mut asked = match position_count {
        Some(p) => of_accepted(&mut random, p),
        None => of_refused(&mut random),
    };
    asked.push((Question::Premiums, "premiums"));
    // With the empty list the pointer is NULL.
    asked.push((Question::Margin { room: 0 }, "no room"));
    asked
}

/// With p = 0 there is no row to ask for.
fn of_accepted(random: &mut Random, p: usize) -> Vec<Purpose> {
    let mut asked = lists(random, p);
    let end = p as u64;
    if p <= FEW_ROWS {
        asked.extend((0..end).map(|row| (Question::Amount { row }, "row")));
    } else {
        let last = end - 1;
        for row in [0, last, random.draw() % last, random.draw() % last, random.draw() % last] {
            asked.push((Question::Amount { row }, "row"));
        }
    }
    for row in [end, end + 1, u64::MAX] {
        asked.push((Question::Amount { row }, "no such row"));
    }
    asked
}

/// Lists of 2 × p entries, of more and of fewer (document 02 [9]). With p = 0 that of 2 × p is empty, and none is too
/// short.
fn lists(random: &mut Random, p: usize) -> Vec<Purpose> {
    let mut asked = Vec::new();
    let needed = 2 * p;
    let exactly = random.chance(50);
    if p <= FEW_ROWS || exactly {
        asked.push((Question::Margin { room: needed }, "room 2p"));
    }
    if p <= FEW_ROWS || !exactly {
        let few = needed + random.between(1, 9) as usize;
        let room = if random.chance(5) { ENOUGH.max(few) } else { few };
        asked.push((Question::Margin { room }, "room above 2p"));
    }
    if p > 0 {
        let any = random.between(1, needed as i64 - 1) as usize;
        asked.extend([
            (Question::Margin { room: needed - 1 }, "room 2p - 1"),
            (Question::Margin { room: p }, "room p"),
            (Question::Margin { room: any }, "room below 2p"),
        ]);
    }
    asked
}

fn of_refused(random: &mut Random) -> Vec<Purpose> {
    let room = if random.chance(3) { ENOUGH } else { random.between(1, 8) as usize };
    let any = random.draw();
    let row = random.pick(&[1, 255, any, u64::MAX]);
    vec![
        (Question::Margin { room }, "refused file"),
        (Question::Amount { row: 0 }, "refused file"),
        (Question::Amount { row }, "refused file"),
    ]
}
