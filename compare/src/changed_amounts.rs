//! Deliberate changes of how amounts and premiums are rounded (document 02 [6]).

use reference::account::{Account, Side, MILLION, REAL};
use reference::lines::{exact_of_left, exact_of_pair};
use reference::reader::read_account;

use crate::changes::Change;
use crate::implementation::{Line, Margin};

/// Before it is rounded, in millionths of a centavo.
pub type Exact = i128;

const CENTAVO: Exact = MILLION as Exact;
const REAL_EXACT: Exact = REAL as Exact * CENTAVO;

/// At which place of an entry the amount stands, and the amount before it is rounded.
pub fn exact_of_line(account: &Account, entry: &Line) -> (usize, Exact) {
    let [kind, first, second, third, _] = *entry;
    let row = first as usize;
    if kind == 1 {
        (4, exact_of_pair(account, row, second as usize, third as i64))
    } else {
        (3, exact_of_left(account, row, second as i64))
    }
}

/// Up to a multiple of a step, in centavos.
fn up_to(step: Exact, exact: Exact) -> u64 {
    ((exact + step - 1) / step * step / CENTAVO) as u64
}

pub fn up_to_real(centavos: u64) -> u64 {
    centavos.next_multiple_of(REAL as u64)
}

/// The lines and the total of an accepted file.
pub fn change_lines(change: Change, file: &[u8], margin: &mut Margin, entries: &mut [Line]) {
    let Ok(account) = read_account(file) else { return };
    let mut sum_exact = 0;
    let mut sum = 0;
    for entry in &mut entries[..margin.lines as usize] {
        let (place, exact) = exact_of_line(&account, entry);
        sum += entry[place];
        sum_exact += exact;
        if let Some(amount) = rounded_otherwise(change, entry[0] == 1, exact) {
            margin.total = margin.total - entry[place] + amount;
            entry[place] = amount;
        }
    }
    match change {
        Change::TotalInReais => margin.total = up_to_real(margin.total),
        Change::TotalRoundedOnce => {
            margin.total = margin.total - sum + up_to(REAL_EXACT, sum_exact)
        }
        _ => {}
    }
}

/// A line's amount as the change has it, if it is another.
fn rounded_otherwise(change: Change, of_pair: bool, exact: Exact) -> Option<u64> {
    let down = exact - exact % REAL_EXACT;
    let nearest = if exact - down < REAL_EXACT / 2 { down } else { down + REAL_EXACT };
    match change {
        Change::LinesInCentavos => Some(up_to(CENTAVO, exact)),
        Change::PairsInCentavos if of_pair => Some(up_to(CENTAVO, exact)),
        Change::LeftInCentavos if !of_pair => Some(up_to(CENTAVO, exact)),
        Change::LinesDown => Some(up_to(REAL_EXACT, down)),
        Change::LinesNearest => Some(up_to(REAL_EXACT, nearest)),
        Change::MultiplesRaised if exact > 0 => Some(up_to(REAL_EXACT, down + REAL_EXACT)),
        _ => None,
    }
}

/// The amount of one position, given that of the implementation.
pub fn change_amount(change: Change, file: &[u8], row: u64, amount: i64) -> i64 {
    let account = match read_account(file) {
        Ok(account) if row < account.positions.len() as u64 => account,
        _ => return amount,
    };
    let position = &account.positions[row as usize];
    match (change, position.side) {
        (Change::AmountInCentavos, Side::Written) => {
            up_to(CENTAVO, exact_of_left(&account, row as usize, position.quantity)) as i64
        }
        (Change::HeldAmountInReais, Side::Held) => up_to_real(amount as u64) as i64,
        _ => amount,
    }
}
