//! Deliberate changes of pairing in instalments and of the amount so far.

use reference::instalment_cases::Call;
use reference::instalments::HalfPaired;
use reference::lines::{margin, pair_entry, premiums};
use reference::reader::read_account;

use crate::changed_apart;
use crate::changed_blocked::{file_read, room_enough, without_blocked_premiums};
use crate::changes::Change;
use crate::implementation::{Answer, Implementation, Line};
use crate::list::List;

/// Places in an entry.
const KIND: usize = 0;
const AMOUNT: usize = 4;

const LOW_HALF: u64 = 1 << 32;

/// The call answered in another way.
pub fn answer(
    change: Change,
    of: &dyn Implementation,
    file: &[u8],
    list: &mut List,
    call: Call,
) -> Answer {
    let call = asked(change, call);
    let before = list.clone();
    let answer = answer_of_blocked(change, of, file, list, call);
    if taken_all_the_same(change, file, list, call, answer) {
        return with_right_lines(of, file, list, call);
    }
    match (answer.refusal, call) {
        (0, Call::Pair { count, allowance }) => {
            change_made(change, file, list, &before, (count, allowance), answer)
        }
        (0, Call::Amount { count }) => change_so_far(change, file, list, count, answer),
        (0, Call::Apart { count, k }) => {
            changed_apart::change_taken(change, list, &before, (count, k), answer)
        }
        (_, Call::Apart { count, k }) => {
            changed_apart::change_refused(change, list, (count, k), answer)
        }
        _ => change_refusal(change, list, call, answer),
    }
}

/// The answer with the changes of blocked contracts and of the list's length.
fn answer_of_blocked(
    change: Change,
    of: &dyn Implementation,
    file: &[u8],
    list: &mut List,
    call: Call,
) -> Answer {
    let other = match (change, call) {
        (Change::PairBlocked, Call::Pair { .. }) => file_read(Change::BlockedPaired, file),
        _ => None,
    };
    let answer = of.call(other.as_deref().unwrap_or(file), list, call);
    let own = match call {
        Call::Pair { .. } => Change::PairRoomP,
        Call::Amount { .. } => Change::SoFarRoomP,
        Call::Apart { .. } => Change::ApartRoomP,
    };
    if answer.refusal == 12 && change == own && room_enough(Change::RoomP, file, list.room) {
        let mut longer = list.with_room(2 * list.room);
        let answer = of.call(file, &mut longer, call);
        let room = list.room;
        list.lines_mut().copy_from_slice(&longer.lines()[..room]);
        return answer;
    }
    match (change, call, answer.refusal) {
        (Change::SoFarWithoutBlocked, Call::Amount { .. }, 0) => {
            without_blocked_premiums(file, answer)
        }
        _ => answer,
    }
}

/// The call that is made in place of this one.
fn asked(change: Change, call: Call) -> Call {
    match (change, call) {
        (Change::PairCountCut, Call::Amount { count }) => Call::Amount { count: count % LOW_HALF },
        (_, Call::Amount { .. }) => call,
        (_, Call::Pair { count, allowance }) => asked_to_pair(change, count, allowance),
        (_, Call::Apart { count, k }) => {
            let (count, k) = changed_apart::asked(change, count, k);
            Call::Apart { count, k }
        }
    }
}

fn asked_to_pair(change: Change, count: u64, allowance: u64) -> Call {
    let (count, allowance) = match change {
        Change::PairAll if allowance > 0 => (count, u64::MAX),
        Change::PairOneMore if allowance > 0 => (count, allowance.saturating_add(1)),
        Change::PairZeroMakesOne => (count, allowance.max(1)),
        Change::PairOneAtMost => (count, allowance.min(1)),
        Change::PairAllowanceCut => (count, allowance % LOW_HALF),
        Change::PairCountCut => (count % LOW_HALF, allowance),
        _ => (count, allowance),
    };
    Call::Pair { count, allowance }
}

/// After pairs were made, or none of those allowed.
fn change_made(
    change: Change,
    file: &[u8],
    list: &mut List,
    before: &List,
    (count, allowance): (u64, u64),
    answer: Answer,
) -> Answer {
    let (first, made) = (count as usize, answer.value as usize);
    let (end, room, lines) = (first + made, list.room, list.lines_mut());
    match change {
        Change::PairEntryAfter if end < room => lines[end] = [0; 5],
        Change::PairFromZero => {
            let new = lines[first..end].to_vec();
            lines.copy_from_slice(before.lines());
            lines[..made].copy_from_slice(&new);
        }
        Change::PairBackwards => lines[first..end].reverse(),
        Change::PairBesideList => list.behind()[KIND] = 1,
        Change::PairLeftLines if answer.value < allowance => {
            write_left_lines(file, &mut lines[end..]);
        }
        Change::PairValueSoFar => return Answer { value: end as u64, ..answer },
        Change::PairValueAllowed => return Answer { value: allowance, ..answer },
        _ => {}
    }
    answer
}

fn write_left_lines(file: &[u8], entries: &mut [Line]) {
    let left = read_account(file).map(|account| margin(&account).left).unwrap_or_default();
    for (entry, line) in entries.iter_mut().zip(left) {
        *entry = [2, line.row as u64, line.quantity as u64, line.amount as u64, 0];
    }
}

/// Of pairs and of the amount.
fn change_refusal(change: Change, list: &mut List, call: Call, answer: Answer) -> Answer {
    let count = call.count();
    match (change, answer.refusal) {
        (Change::PairOnRefusal, _) if matches!(call, Call::Pair { .. }) => {
            list.lines_mut().iter_mut().last().into_iter().for_each(|line| line[AMOUNT] ^= 1);
            answer
        }
        (Change::LinesBeforeList, 12) if count > 0 => Answer { refusal: 18, ..answer },
        (Change::LinesBeforeReading, 1..=11) if count > 255 => {
            Answer { refusal: 18, row: 0, value: 0 }
        }
        (Change::LinesRefusalRow, 18) => Answer { row: count, ..answer },
        (Change::LinesRefusalValue, 18) => Answer { value: 1, ..answer },
        (Change::LinesRefusalNumber, 18) => Answer { refusal: 15, ..answer },
        (Change::LeftLineCounted, 18) if count <= list.room as u64 => {
            Answer { refusal: 0, row: 0, value: 0 }
        }
        _ => answer,
    }
}

/// Is a list with other lines taken by the change?
fn taken_all_the_same(
    change: Change,
    file: &[u8],
    list: &List,
    call: Call,
    answer: Answer,
) -> bool {
    if answer.refusal != 18 {
        return false;
    }
    let right = first_lines(file, call.count());
    if right.len() as u64 != call.count() {
        return false;
    }
    match call {
        Call::Apart { k, .. } => changed_apart::enough(change, list.lines(), &right, k),
        _ => enough(change, list.lines(), &right),
    }
}

/// The same of pairs and of the amount, given the lines that are right.
fn enough(change: Change, lines: &[Line], right: &[Line]) -> bool {
    let same_but = |place: usize| {
        let mut both = right.iter().zip(lines);
        both.all(|(line, entry)| (0..5).all(|at| at == place || line[at] == entry[at]))
    };
    match change {
        Change::LinesNotLookedAt => true,
        Change::FirstLineOnly => right[0] == lines[0],
        Change::LastLineOnly => right.last() == lines[..right.len()].last(),
        Change::LineKindIgnored => same_but(KIND),
        Change::LineAmountIgnored => same_but(AMOUNT),
        _ => false,
    }
}

/// The lines of the account's first pairs, so many or all; of a file that is accepted.
fn first_lines(file: &[u8], count: u64) -> Vec<Line> {
    let Ok(account) = read_account(file) else { return Vec::new() };
    let mut half = HalfPaired::begun(account);
    half.make(count);
    half.pairs.iter().map(pair_entry).collect()
}

/// The call with the first pairs in the list; those that it leaves there are afterwards as they were.
fn with_right_lines(of: &dyn Implementation, file: &[u8], list: &mut List, call: Call) -> Answer {
    let (right, given) = (first_lines(file, call.count()), list.clone());
    list.lines_mut()[..right.len()].copy_from_slice(&right);
    let answer = of.call(file, list, call);
    for (at, line) in right.iter().enumerate() {
        if list.lines()[at] == *line {
            list.lines_mut()[at] = given.lines()[at];
        }
    }
    answer
}

/// After an amount was given.
fn change_so_far(
    change: Change,
    file: &[u8],
    list: &mut List,
    count: u64,
    answer: Answer,
) -> Answer {
    if change == Change::SoFarWritesList {
        list.lines_mut().iter_mut().take(1).for_each(|line| line[AMOUNT] ^= 1);
    }
    Answer { value: change_amount(change, file, count, answer.value), ..answer }
}

/// The amount in centavos after so many pairs, given that of the implementation.
fn change_amount(change: Change, file: &[u8], count: u64, amount: u64) -> u64 {
    let Ok(account) = read_account(file) else { return amount };
    let mut half = HalfPaired::begun(account);
    half.make(count);
    let pairs: i64 = half.pairs.iter().map(|pair| pair.amount).sum();
    let premiums = premiums(file).unwrap_or_default() as u64;
    match change {
        Change::SoFarWithoutPremiums => amount - premiums,
        Change::SoFarPairsAlone => pairs as u64 + premiums,
        Change::SoFarLeftAlone => amount - pairs as u64,
        Change::SoFarTotal => margin(&half.account).total as u64,
        Change::SoFarOnePairLess => {
            let mut earlier = HalfPaired::begun(half.account);
            earlier.make(count.saturating_sub(1));
            earlier.amount() as u64
        }
        _ => amount,
    }
}
