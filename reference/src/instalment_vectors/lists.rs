//! What the entries hold before the first call, and lists that are too short.

use super::accounts::{document, three_pairs, Known};
use super::{amount, made, refused, Cases};
use crate::draft::Draft;
use crate::lines::Entry;

/// Entries after the list, which are not handed over.
const AFTER: usize = 2;

pub struct Lent {
    pub room: usize,
    pub entries: Vec<Entry>,
}

/// What no line is: each entry has its own.
pub fn mark(entry: usize) -> Entry {
    let at = entry as u64;
    [90, at, 91, 92, 93 + at]
}

impl Lent {
    /// The entries that the list of an account needs: 2 × p (document 02 [9]).
    pub fn needed(draft: &Draft) -> usize {
        2 * draft.positions.len()
    }

    /// A list of so many entries, marked as those after it are.
    pub fn marked(room: usize) -> Lent {
        Lent { room, entries: (0..room + AFTER).map(mark).collect() }
    }

    /// The same with these lines in its first entries.
    pub fn with(lines: &[Entry], room: usize) -> Lent {
        let mut lent = Lent::marked(room);
        lent.entries[..lines.len()].copy_from_slice(lines);
        lent
    }

    /// A list in which every number is this one.
    pub fn of(number: u64, room: usize) -> Lent {
        Lent { room, entries: vec![[number; 5]; room + AFTER] }
    }
}

/// Refusal 12, whatever the lines, the count and the allowance, also where there
/// is an entry for every row; and lists that are just long enough, and longer
/// than any account needs.
pub fn add_short(cases: &mut Cases) {
    cases.begin("short lists");
    for (name, known) in [("the example", document()), ("three pairs", three_pairs())] {
        let needed = Lent::needed(&known.draft);
        for room in 0..needed {
            short(cases, name, &known, room);
        }
        for room in [needed, needed + 1, 512, 600] {
            let pairs = known.pairs.len();
            let asked = vec![
                made(0, 1, 1),
                amount(1, known.amounts[1]),
                made(1, u64::MAX, pairs as u64 - 1),
                amount(pairs as u64, known.amounts[pairs]),
            ];
            let name = format!("{name}, room {room} of {needed}");
            cases.add(name, &known.draft, Lent::marked(room), asked);
        }
    }
}

fn short(cases: &mut Cases, name: &str, known: &Known, room: usize) {
    let counts = [0, 1, room as u64, room as u64 + 1, u64::MAX];
    let asked = counts.into_iter().flat_map(|count| refused(count, count, 12)).collect();
    // The first lines, as far as there are entries.
    let lines = &known.pairs[..known.pairs.len().min(room)];
    let name = format!("{name}, room {room} of {}", Lent::needed(&known.draft));
    cases.add(name, &known.draft, Lent::with(lines, room), asked);
}
