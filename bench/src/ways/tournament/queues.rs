//! Queues of written rows of the same terms. Only the first row with contracts left searches: of rows with the same terms
//! the lowest is always chosen first.

use super::keys::{ends, held_lanes, places, row_of, written_keys, NONE};
use crate::ways::{Row, Rows};

struct Queue {
    /// Its rows, from the first with contracts left to before `end` in the order of the written rows.
    first: usize,
    end: usize,
    unit_margin: i64,
    /// In each lane: its place, the next held row to look at, and where those end that it may pair with.
    places: [u64; 2],
    next: [usize; 2],
    ends: [u64; 2],
}

pub struct Queues<'a> {
    rows: &'a Rows<'a>,
    /// The keys of the held rows in each lane, and of the written rows upwards.
    held: [Vec<u64>; 2],
    written: Vec<u64>,
    list: Vec<Queue>,
    /// The queue of each written row.
    queue_of: [usize; 256],
}

impl<'a> Queues<'a> {
    pub fn of(rows: &'a Rows<'a>) -> Queues<'a> {
        let (held, written) = (held_lanes(rows), written_keys(rows));
        let list = Vec::with_capacity(written.len());
        let mut queues = Queues { rows, held, written, list, queue_of: [0; 256] };
        for at in 0..queues.written.len() {
            if at == 0 || !queues.same_terms(queues.written[at - 1], queues.written[at]) {
                queues.list.push(queues.beginning_at(at));
            }
            let last = queues.list.len() - 1;
            queues.list[last].end = at + 1;
            queues.queue_of[row_of(queues.written[at])] = last;
        }
        queues
    }

    fn same_terms(&self, one: u64, other: u64) -> bool {
        let terms = |key: u64| &self.rows.list[row_of(key)].terms;
        one >> 8 == other >> 8 && terms(one) == terms(other)
    }

    fn beginning_at(&self, at: usize) -> Queue {
        let row = &self.rows.list[row_of(self.written[at])];
        let places = places(row);
        // Held rows of the same strike stand in both lanes; downwards they are left out.
        let starts = [places[0], places[1] + 256];
        let next = [0, 1].map(|lane| self.held[lane].partition_point(|key| *key < starts[lane]));
        let unit_margin = row.unit_margin();
        Queue { first: at, end: at, unit_margin, places, next, ends: ends(row, places) }
    }

    pub fn count(&self) -> usize {
        self.list.len()
    }

    pub fn queue_of(&self, written: usize) -> usize {
        self.queue_of[written]
    }

    /// Strike difference, written row and held row of the queue's nearest pair, in one number.
    pub fn rank(&mut self, number: usize, left: &[i64]) -> u64 {
        let queue = &mut self.list[number];
        while queue.first < queue.end && left[row_of(self.written[queue.first])] == 0 {
            queue.first += 1;
        }
        if queue.first == queue.end {
            return NONE;
        }
        let written = row_of(self.written[queue.first]);
        let rows = &self.rows.list;
        let [up, down] =
            [0, 1].map(|lane| queue.nearest(lane, &self.held[lane], rows, &rows[written], left));
        match up.min(down) {
            NONE => NONE,
            nearest => (nearest >> 8) << 16 | (written as u64) << 8 | nearest & 255,
        }
    }
}

impl Queue {
    /// Strike difference and row of the nearest held row of a lane that makes a pair now, in one number.
    fn nearest(
        &mut self,
        lane: usize,
        keys: &[u64],
        rows: &[Row],
        written: &Row,
        left: &[i64],
    ) -> u64 {
        while let Some(key) = keys.get(self.next[lane]) {
            if *key >= self.ends[lane] {
                break;
            }
            let held = row_of(*key);
            if left[held] > 0 && written.lowered_by(&rows[held], self.unit_margin) {
                return key - self.places[lane];
            }
            self.next[lane] += 1;
        }
        NONE
    }
}
