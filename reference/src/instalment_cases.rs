//! Calls one after the other on one list, as bytes, and what is printed for
//! them.

use crate::instalments::{amount_so_far, pair_into, take_apart_in};
use crate::lines::Entry;
use crate::reader::Refusal;

#[derive(Clone, Copy, Debug, PartialEq, Eq)]
pub enum Call {
    Pair { count: u64, allowance: u64 },
    Amount { count: u64 },
    Apart { count: u64, k: u64 },
}

/// The pairs made, the amount or the pairs left, or the refusal.
pub type Answer = Result<u64, Refusal>;

/// The first `room` entries are handed over as the list, and those after them
/// are not. Each call gets them as the call before it left them.
#[derive(Clone, Debug, PartialEq, Eq)]
pub struct Case {
    pub room: usize,
    pub entries: Vec<Entry>,
    pub calls: Vec<Call>,
    pub file: Vec<u8>,
}

impl Call {
    /// The lines that are said to be in the list.
    pub fn count(&self) -> u64 {
        let (Call::Pair { count, .. } | Call::Amount { count } | Call::Apart { count, .. }) = *self;
        count
    }

    /// The answer; the list is left as the call leaves it.
    pub fn answer(&self, file: &[u8], list: &mut [Entry]) -> Answer {
        match *self {
            Call::Pair { count, allowance } => pair_into(file, list, count, allowance),
            Call::Amount { count } => amount_so_far(file, list, count).map(|amount| amount as u64),
            Call::Apart { count, k } => take_apart_in(file, list, count, k),
        }
    }

    fn numbers(&self) -> [u64; 3] {
        match *self {
            Call::Pair { count, allowance } => [0, count, allowance],
            Call::Amount { count } => [1, count, 0],
            Call::Apart { count, k } => [2, count, k],
        }
    }

    fn of_numbers([call, count, third]: [u64; 3]) -> Call {
        match call {
            0 => Call::Pair { count, allowance: third },
            1 => Call::Amount { count },
            _ => Call::Apart { count, k: third },
        }
    }
}

impl Case {
    /// Of each call the answer, and all entries after it.
    pub fn answers(&self) -> Vec<(Answer, Vec<Entry>)> {
        let mut entries = self.entries.clone();
        let mut answers = Vec::new();
        for call in &self.calls {
            let answer = call.answer(&self.file, &mut entries[..self.room]);
            answers.push((answer, entries.clone()));
        }
        answers
    }

    /// For each call a line, `made`, `amount`, `count` or `refused` with number
    /// and row, then all entries, each in a line; after the last call an empty
    /// line.
    pub fn output(&self) -> String {
        let mut text = String::new();
        for (call, (answer, entries)) in self.calls.iter().zip(self.answers()) {
            text += &match (answer, call) {
                (Ok(made), Call::Pair { .. }) => format!("made {made}\n"),
                (Ok(amount), Call::Amount { .. }) => format!("amount {amount}\n"),
                (Ok(count), Call::Apart { .. }) => format!("count {count}\n"),
                (Err(Refusal { number, row }), _) => format!("refused {number} {row}\n"),
            };
            for entry in entries {
                text += &(entry.map(|number| number.to_string()).join(" ") + "\n");
            }
        }
        text + "\n"
    }

    /// Room, number of entries and number of calls; each call as 0 for pairs, 1
    /// for the amount or 2 for taking apart, count, and allowance or k; the
    /// entries; all of them numbers of eight little-endian bytes. Then the file.
    pub fn bytes(&self) -> Vec<u8> {
        let mut numbers = vec![self.room, self.entries.len(), self.calls.len()]
            .into_iter()
            .map(|number| number as u64)
            .collect::<Vec<u64>>();
        numbers.extend(self.calls.iter().flat_map(Call::numbers));
        numbers.extend(self.entries.iter().flatten());
        let mut bytes: Vec<u8> = numbers.into_iter().flat_map(u64::to_le_bytes).collect();
        bytes.extend(&self.file);
        bytes
    }

    pub fn of_bytes(bytes: &[u8]) -> Case {
        let number = |at: usize| u64::from_le_bytes(bytes[8 * at..][..8].try_into().unwrap());
        let [room, entries, calls] = [0, 1, 2].map(|at| number(at) as usize);
        let call = |at: usize| Call::of_numbers([0, 1, 2].map(|part| number(3 + 3 * at + part)));
        let first = 3 + 3 * calls;
        let entry = |at: usize| [0, 1, 2, 3, 4].map(|part| number(first + 5 * at + part));
        Case {
            room,
            entries: (0..entries).map(entry).collect(),
            calls: (0..calls).map(call).collect(),
            file: bytes[8 * (first + 5 * entries)..].to_vec(),
        }
    }
}
