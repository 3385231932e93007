//! The caller's list for calls about pairs, and what an entry holds before a call.

use crate::implementation::Line;

/// Entries on either side of the caller's list, which is not told of them.
pub const BESIDE: usize = 3;

/// The caller's list, with the entries beside it.
#[derive(Clone, Debug, PartialEq, Eq)]
pub struct List {
    pub entries: Vec<Line>,
    pub room: usize,
}

impl List {
    pub fn marked(room: usize) -> List {
        List { entries: (0..BESIDE + room + BESIDE).map(content_before).collect(), room }
    }

    /// The list itself.
    pub fn lines(&self) -> &[Line] {
        &self.entries[BESIDE..][..self.room]
    }

    pub fn lines_mut(&mut self) -> &mut [Line] {
        &mut self.entries[BESIDE..][..self.room]
    }

    /// The entry right behind the list.
    pub fn behind(&mut self) -> &mut Line {
        &mut self.entries[BESIDE + self.room]
    }

    /// The same in a list of fewer entries or more.
    pub fn with_room(&self, room: usize) -> List {
        let mut other = List::marked(room);
        let both = room.min(self.room);
        other.lines_mut()[..both].copy_from_slice(&self.lines()[..both]);
        other
    }
}

/// Numbers that no line has.
pub fn content_before(entry: usize) -> Line {
    let mark = 0xA5A5_0000_0000_0000 + 8 * entry as u64;
    [mark, mark + 1, mark + 2, mark + 3, mark + 4]
}
