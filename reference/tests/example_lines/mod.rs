//! The lines of document 01's example, an entry that is none of them, and lists
//! that are long enough for the example.

use reference::lines::Entry;

pub const UNTOUCHED: Entry = [77; 5];
pub const FIRST: Entry = [1, 0, 2, 3, 0];
pub const SECOND: Entry = [1, 0, 1, 4, 3000];
pub const LEFT: Entry = [2, 0, 3, 7500, 0];

/// Twice as many as the example has rows (document 02 [9]).
pub const NEEDED: usize = 6;

/// The entries that the example needs, these lines first.
pub fn list_with(lines: &[Entry]) -> Vec<Entry> {
    let mut list = lines.to_vec();
    list.resize(NEEDED, UNTOUCHED);
    list
}
