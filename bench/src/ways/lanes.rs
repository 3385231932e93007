//! Lanes: held rows in the order of their strikes, up and down. A written row keeps a place in each of the two lanes and
//! the rank of its nearest pair, and looks again only where one of the two rows is spent.

use reference::account::Account;
use reference::pairing::Pair;

use super::{Row, Rows, HIGHEST};

const NONE: u64 = 1 << 60;
const SERIES: u64 = 1 << 40;

#[derive(Clone, Copy)]
enum Lane {
    Up,
    Down,
}

/// The key of a row in a lane, its row number apart.
fn key(row: &Row, lane: Lane) -> u64 {
    let place = match lane {
        Lane::Up => row.strike(),
        Lane::Down => HIGHEST - row.strike(),
    };
    row.series_number as u64 * SERIES + place * 256
}

/// From each held row the next one of the lane, from each other row its first.
fn links(rows: &[Row], lane: Lane) -> Vec<u64> {
    let all = || rows.iter().enumerate();
    let own = |number: usize, row: &Row| key(row, lane) + number as u64;
    let mut keys: Vec<u64> =
        all().filter(|(_, row)| row.held).map(|(number, row)| own(number, row)).collect();
    keys.sort_unstable();
    let first = |number: usize, row: &Row| match lane {
        _ if row.held => own(number, row) + 1,
        Lane::Up => key(row, lane),
        Lane::Down => key(row, lane) + 256,
    };
    all()
        .map(|(number, row)| {
            let at = keys.partition_point(|k| *k < first(number, row));
            keys.get(at).copied().unwrap_or(NONE)
        })
        .collect()
}

/// Of a written row: the rank of its nearest pair, its unit margin, and its places.
struct Nearest {
    rank: u64,
    unit: i64,
    places: [u64; 2],
}

struct Search<'a> {
    rows: Rows<'a>,
    links: [Vec<u64>; 2],
    nearest: Vec<Nearest>,
}

impl Search<'_> {
    /// Where the keys of the row's series end.
    fn top(&self, written: usize) -> u64 {
        (self.rows.list[written].series_number as u64 + 1) * SERIES
    }

    /// From a place on, the first row that makes a pair now.
    fn seek(&self, left: &[i64], lane: usize, written: usize, unit: i64, mut place: u64) -> u64 {
        let (row, top) = (&self.rows.list[written], self.top(written));
        while place < top {
            let held = (place % 256) as usize;
            if left[held] > 0 && row.lowered_by(&self.rows.list[held], unit) {
                break;
            }
            place = self.links[lane][held];
        }
        place
    }

    fn rank(&self, written: usize, places: [u64; 2]) -> u64 {
        let (row, top) = (&self.rows.list[written], self.top(written));
        let far = |lane, place| if place < top { place - key(row, lane) } else { NONE };
        let nearest = far(Lane::Up, places[0]).min(far(Lane::Down, places[1]));
        if nearest == NONE {
            return NONE;
        }
        nearest / 256 * 65_536 + written as u64 * 256 + nearest % 256
    }

    fn begin(&self, left: &[i64], written: usize) -> Nearest {
        if !self.rows.list[written].written {
            return Nearest { rank: NONE, unit: 0, places: [NONE; 2] };
        }
        let unit = self.rows.list[written].unit_margin();
        let places =
            [0, 1].map(|lane| self.seek(left, lane, written, unit, self.links[lane][written]));
        Nearest { rank: self.rank(written, places), unit, places }
    }

    fn look_again(&mut self, left: &[i64], written: usize) {
        let Nearest { unit, places, .. } = self.nearest[written];
        let places = [0, 1].map(|lane| self.seek(left, lane, written, unit, places[lane]));
        let rank = if left[written] == 0 { NONE } else { self.rank(written, places) };
        self.nearest[written] = Nearest { rank, unit, places };
    }

    /// The least rank of all rows.
    fn best(&mut self, left: &[i64]) -> u64 {
        let mut best = NONE;
        for written in 0..self.nearest.len() {
            let rank = self.nearest[written].rank;
            if rank < NONE && (left[written] == 0 || left[(rank % 256) as usize] == 0) {
                self.look_again(left, written);
            }
            best = best.min(self.nearest[written].rank);
        }
        best
    }
}

pub fn pairs(account: &Account, left: &mut [i64]) -> Vec<Pair> {
    let rows = Rows::of(account);
    let links = [Lane::Up, Lane::Down].map(|lane| links(&rows.list, lane));
    let mut search = Search { rows, links, nearest: Vec::new() };
    search.nearest = (0..left.len()).map(|row| search.begin(left, row)).collect();
    let mut made = Vec::with_capacity(left.len());
    loop {
        let best = search.best(left);
        if best >= NONE {
            return made;
        }
        made.push(search.rows.pair(left, (best / 256 % 256) as usize, (best % 256) as usize));
    }
}
