//! Deliberate changes of taking pairs apart.

use crate::changes::Change;
use crate::implementation::{Answer, Line};
use crate::list::List;

/// Places in an entry.
const KIND: usize = 0;

const ZEROS: Line = [0; 5];

const LOW_HALF: u64 = 1 << 32;

/// The count and k that are asked in place of these.
pub fn asked(change: Change, count: u64, k: u64) -> (u64, u64) {
    match change {
        Change::ApartAll if k > 0 && k < count => (count, count),
        Change::ApartZeroTakesOne if k == 0 => (count, count.min(1)),
        Change::ApartKCut => (count, k % LOW_HALF),
        Change::ApartCountCut => (count % LOW_HALF, k),
        Change::ApartCapped => (count, k.min(count)),
        _ => (count, k),
    }
}

/// After the latest `k` of `count` pairs were taken apart.
pub fn change_taken(
    change: Change,
    list: &mut List,
    before: &List,
    (count, k): (u64, u64),
    answer: Answer,
) -> Answer {
    match change {
        Change::ApartAtCountRefused if k == count && k > 0 => {
            list.clone_from(before);
            return Answer { refusal: 19, row: 0, value: 0 };
        }
        Change::ApartCountKept => return Answer { value: count, ..answer },
        Change::ApartValueTaken => return Answer { value: k, ..answer },
        Change::ApartBesideList => *list.behind() = ZEROS,
        Change::ApartEntryAfter if count < list.room as u64 => {
            list.lines_mut()[count as usize] = ZEROS;
        }
        _ if k > 0 => {
            let places = (answer.value as usize, count as usize);
            change_entries(change, list.lines_mut(), before.lines(), places);
        }
        _ => {}
    }
    answer
}

/// The entries from `left` to `count` are zeros now, and at least one.
fn change_entries(
    change: Change,
    lines: &mut [Line],
    before: &[Line],
    (left, count): (usize, usize),
) {
    match change {
        Change::ApartFirstKept => lines[left] = before[left],
        Change::ApartLastKept => lines[count - 1] = before[count - 1],
        Change::ApartNotCleared => lines.copy_from_slice(before),
        Change::ApartKindAlone => {
            lines.copy_from_slice(before);
            lines[left..count].iter_mut().for_each(|line| line[KIND] = 0);
        }
        Change::ApartKindKept => lines[left..count].iter_mut().for_each(|line| line[KIND] = 1),
        Change::ApartEntryBefore if left > 0 => lines[left - 1] = ZEROS,
        Change::ApartFromFirst => {
            lines.copy_from_slice(before);
            lines[..count - left].fill(ZEROS);
        }
        Change::ApartMoved => {
            lines.copy_within(count.., left);
        }
        _ => {}
    }
}

/// Are these lines enough for the change, given those that are right?
pub fn enough(change: Change, lines: &[Line], right: &[Line], k: u64) -> bool {
    let Some(left) = right.len().checked_sub(k as usize) else { return false };
    match change {
        Change::ApartAnyLines => true,
        Change::ApartLatestLinesOnly => lines[left..right.len()] == right[left..],
        Change::ApartOtherLinesOnly => lines[..left] == right[..left],
        _ => false,
    }
}

pub fn change_refused(
    change: Change,
    list: &mut List,
    (count, k): (u64, u64),
    answer: Answer,
) -> Answer {
    let above = Answer { refusal: 19, row: 0, value: 0 };
    match (change, answer.refusal) {
        (Change::ApartBeforeLines, 18) if k > count => return above,
        (Change::ApartBeforeList, 12) if k > count => return above,
        (Change::ApartBeforeReading, 1..=11) if k > count => return above,
        (Change::ApartRefusalRow, 19) => return Answer { row: k - count, ..answer },
        (Change::ApartRefusalValue, 19) => return Answer { value: count, ..answer },
        (Change::ApartRefusalNumber, 19) => return Answer { refusal: 18, ..answer },
        (Change::ApartOnRefusal, 19) => list.lines_mut()[..count as usize].fill(ZEROS),
        (Change::ApartOnOtherLines, 18) => {
            let lines = list.lines_mut();
            let end = lines.len().min(count as usize);
            lines[..end].fill(ZEROS);
        }
        _ => {}
    }
    answer
}
