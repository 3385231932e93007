//! What the programs print for one file, every line with its line end.

use crate::lines::margin;
use crate::position::position_amount;
use crate::reader::{read_account, Refusal};

/// Lines, premium and total, or the refusal.
pub fn margin_output(bytes: &[u8]) -> String {
    let account = match read_account(bytes) {
        Ok(account) => account,
        Err(refusal) => return refused(&refusal),
    };
    let answer = margin(&account);
    let mut text = String::new();
    for p in &answer.pairs {
        text += &format!("pair {} {} {} {}\n", p.written, p.held, p.quantity, p.amount);
    }
    for l in &answer.left {
        text += &format!("left {} {} {}\n", l.row, l.quantity, l.amount);
    }
    text += &format!("premium {}\n", answer.premium);
    text += &format!("total {}\n", answer.total);
    text
}

/// The amount of each row by itself and the refusal of the row after the last,
/// or the file's own refusal.
pub fn amounts_output(bytes: &[u8]) -> String {
    let account = match read_account(bytes) {
        Ok(account) => account,
        Err(refusal) => return refused(&refusal),
    };
    let mut text = String::new();
    for row in 0..account.positions.len() {
        text += &format!("amount {row} {}\n", position_amount(&account, row));
    }
    text + &refused(&Refusal { number: 13, row: 0 })
}

fn refused(refusal: &Refusal) -> String {
    format!("refused {} {}\n", refusal.number, refusal.row)
}

/// The outputs of many files, each given as its length in four little-endian
/// bytes and then its bytes.
pub fn outputs_of(files: &[u8], output: impl Fn(&[u8]) -> String) -> String {
    let mut text = String::new();
    let mut rest = files;
    while !rest.is_empty() {
        let length = u32::from_le_bytes(rest[..4].try_into().unwrap()) as usize;
        text += &output(&rest[4..4 + length]);
        rest = &rest[4 + length..];
    }
    text
}
