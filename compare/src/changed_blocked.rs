//! Deliberate changes of contracts blocked as collateral (document 02 [9]).

use reference::account::{Account, Position, Side};
use reference::reader::{distance, read_account, Refusal, POSITION_BYTES, TRAILER_BYTES};

use crate::changes::Change;
use crate::implementation::{Answer, Implementation, Line, Margin};

/// Bytes 5 to 7 of a position row are the number, and byte 2 is its side.
const NUMBER_AT: usize = 5;
const SIDE_AT: usize = 2;
const QUANTITY_AT: usize = 8;

/// Places in an entry.
const KIND: usize = 0;
const ROW: usize = 1;
const LEFT_QUANTITY: usize = 2;

/// The file that is read in place of this one, if it is another.
pub fn file_read(change: Change, file: &[u8]) -> Option<Vec<u8>> {
    let mut other = file.to_vec();
    for row in position_rows(file)? {
        change_row(change, &mut other[row..row + POSITION_BYTES]);
    }
    (other != file).then_some(other)
}

/// Where the position rows begin, of a file whose trailer is in order.
fn position_rows(file: &[u8]) -> Option<impl Iterator<Item = usize>> {
    if let Err(Refusal { number: 1..=4, .. }) = read_account(file) {
        return None;
    }
    let count_at = file.len() - TRAILER_BYTES + 2;
    let count = u16::from_le_bytes([file[count_at], file[count_at + 1]]).into();
    let first = file.len() - distance(0, count);
    Some((0..count).map(move |row| first + POSITION_BYTES * row))
}

fn change_row(change: Change, row: &mut [u8]) {
    let held = row[SIDE_AT] == 0;
    let quantity = u32::from_le_bytes(row[QUANTITY_AT..][..4].try_into().expect("four bytes"));
    let [low, middle, high] = [0, 1, 2].map(|at| row[NUMBER_AT + at]);
    let number = u32::from_le_bytes([low, middle, high, 0]);
    let other = match change {
        Change::BlockedPaired if held => 0,
        Change::BlockedWritten if row[SIDE_AT] == 1 => 0,
        Change::BlockedAboveQ if held => number.min(quantity),
        Change::BlockedBigEndian if held => u32::from_be_bytes([0, low, middle, high]),
        Change::BlockedLowBits if held => u32::from_le_bytes([low, middle, 0, 0]),
        _ => number,
    };
    row[NUMBER_AT..][..3].copy_from_slice(&other.to_le_bytes()[..3]);
}

/// The refusal that the change gives in place of the reading's, or of none.
pub fn other_refusal(change: Change, file: &[u8]) -> Option<Refusal> {
    let refused_but_for = |other: Change, number: i64| {
        let refusal = read_account(file).err()?;
        let read = file_read(other, file)?;
        (read_account(&read).err() != Some(refusal)).then_some(Refusal { number, ..refusal })
    };
    let first_row = |number: i64, what: fn(&Position) -> bool| {
        let row = read_account(file).ok()?.positions.iter().position(what)?;
        Some(Refusal { number, row })
    };
    match change {
        Change::BlockedRefused => first_row(7, |p| p.blocked > 0),
        Change::BlockedAllRefused => first_row(8, |p| p.blocked == p.quantity),
        Change::BlockedAboveQSeven => refused_but_for(Change::BlockedAboveQ, 7),
        Change::BlockedWrittenEight => refused_but_for(Change::BlockedWritten, 8),
        _ => None,
    }
}

/// Is a list of so few entries, fewer than 2 × p, enough for the margin by this change?
pub fn room_enough(change: Change, file: &[u8], room: usize) -> bool {
    let Ok(account) = read_account(file) else { return false };
    let p = account.positions.len();
    let blocked = account.positions.iter().any(|position| position.blocked > 0);
    match change {
        Change::RoomP => room >= p,
        Change::RoomOneLess => room + 1 == 2 * p,
        Change::RoomBlockedAlone => room >= p && !blocked,
        _ => false,
    }
}

/// Is a list of exactly 2 × p entries refused by the change?
pub fn refuses_room(change: Change, file: &[u8], room: usize) -> bool {
    let rows = read_account(file).map(|account| account.positions.len());
    change == Change::RoomRefused && room > 0 && rows.is_ok_and(|p| room == 2 * p)
}

/// The margin in a list that is long enough, as much of it as there is room for.
pub fn margin_in(of: &dyn Implementation, file: &[u8], list: &mut [Line]) -> Margin {
    let rows = read_account(file).map_or(0, |account| account.positions.len());
    let mut longer = list.to_vec();
    longer.resize(2 * rows, [0; 5]);
    let margin = of.margin(file, &mut longer, 2 * rows);
    list.copy_from_slice(&longer[..list.len()]);
    margin
}

/// The lines of an accepted file.
pub fn change_left_lines(change: Change, file: &[u8], margin: &mut Margin, entries: &mut [Line]) {
    let Ok(account) = read_account(file) else { return };
    let before = entries[..margin.lines as usize].to_vec();
    let after: Vec<Line> =
        before.iter().flat_map(|line| changed_line(change, &account, *line)).collect();
    if after == before || after.len() > entries.len() {
        return;
    }
    entries[..after.len()].copy_from_slice(&after);
    margin.lines = after.len() as u64;
}

/// What stands in place of a line.
fn changed_line(change: Change, account: &Account, line: Line) -> Vec<Line> {
    let position = &account.positions[line[ROW] as usize];
    let blocked = position.blocked as u64;
    if line[KIND] != 2 || blocked == 0 {
        return vec![line];
    }
    let quantity = line[LEFT_QUANTITY];
    let of = |quantity: u64| [2, line[ROW], quantity, line[3], line[4]];
    let others = match change {
        Change::LeftWithoutBlocked => vec![quantity - blocked],
        Change::LeftBlockedAlone => vec![blocked],
        Change::LeftOfSpentDropped if quantity == blocked && position.free() > 0 => vec![],
        Change::LeftOfAllBlockedDropped if position.free() == 0 => vec![],
        Change::LeftBlockedApart => vec![quantity - blocked, blocked],
        Change::LeftQ => vec![position.quantity as u64],
        _ => vec![quantity],
    };
    others.into_iter().filter(|quantity| *quantity > 0).map(of).collect()
}

/// What the premiums of a row's blocked contracts come to.
fn blocked_premium(account: &Account, row: usize) -> i64 {
    let position = &account.positions[row];
    position.premium * account.series_of(row).m * position.blocked
}

/// The amount of one position, given that of the implementation.
pub fn change_amount(change: Change, file: &[u8], row: u64, amount: i64) -> i64 {
    let Ok(account) = read_account(file) else { return amount };
    let position = account.positions.get(row as usize);
    match (change, position.map(|position| position.side)) {
        (Change::AmountWithoutBlocked, Some(Side::Held)) => {
            amount - blocked_premium(&account, row as usize)
        }
        _ => amount,
    }
}

/// The premiums, or an amount with them, less those of blocked contracts.
pub fn without_blocked_premiums(file: &[u8], answer: Answer) -> Answer {
    let Ok(account) = read_account(file) else { return answer };
    let less: i64 = (0..account.positions.len()).map(|row| blocked_premium(&account, row)).sum();
    Answer { value: answer.value - less as u64, ..answer }
}

/// The bytes of the file after a day that was applied: no contracts blocked any more in rows whose flags it set, or in all.
pub fn change_day(change: Change, before: &[u8], file: &mut [u8]) {
    let Some(rows) = position_rows(before) else { return };
    for row in rows {
        let flagged = before[row..row + POSITION_BYTES] != file[row..row + POSITION_BYTES];
        if change == Change::DayBlocked || change == Change::DayBlockedTouched && flagged {
            file[row + NUMBER_AT..][..3].fill(0);
        }
    }
}
