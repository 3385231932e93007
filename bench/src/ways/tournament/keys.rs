//! Held rows in the order of their strikes. A key is one number: series, family, strike, row.

use reference::account::{Barrier, Limiter, OptionType, Terms};

use crate::ways::{Row, Rows, HIGHEST};

/// Above every key and every rank.
pub const NONE: u64 = u64::MAX;

/// Knock-ins, which pair with rows of the same terms alone.
pub const SAME_TERMS: u64 = 3;

/// The place of the highest strike of the last family and series.
const LAST: u64 = 127 << 32 | HIGHEST << 8;

/// Rows of different families never pair.
pub fn family(terms: &Terms) -> u64 {
    match terms.barrier {
        Barrier::None => 0,
        Barrier::UpAndOut(_) => 1,
        Barrier::DownAndOut(_) => 2,
        Barrier::UpAndIn(_) | Barrier::DownAndIn(_) => SAME_TERMS,
    }
}

/// A row's place in the lane upwards and in the one downwards; its key is the place and the row's number.
pub fn places(row: &Row) -> [u64; 2] {
    let group = 4 * row.series_number as u64 + family(&row.terms);
    let up = group << 32 | row.strike() << 8;
    [up, LAST - up]
}

/// Where the keys end that rows at a place may pair with.
pub fn ends(row: &Row, places: [u64; 2]) -> [u64; 2] {
    match family(&row.terms) {
        SAME_TERMS => [places[0] + 256, 0],
        _ => places.map(|place| ((place >> 32) + 1) << 32),
    }
}

/// The row of a key or of a rank.
pub fn row_of(key: u64) -> usize {
    (key & 255) as usize
}

/// How near a row's limiter is: greater where it is nearer, 0 without one.
fn nearness(row: &Row) -> u64 {
    match (row.terms.limiter, row.series.option_type) {
        (Limiter::Absent, _) => 0,
        (Limiter::At(price), OptionType::Call) => HIGHEST + 1 - price as u64,
        (Limiter::At(price), OptionType::Put) => price as u64 + 1,
    }
}

/// The nearest limiter of each series' written rows.
fn nearest(rows: &Rows) -> [u64; 32] {
    let mut nearest = [0; 32];
    for row in rows.list.iter().filter(|row| row.written) {
        let series = &mut nearest[row.series_number];
        *series = nearness(row).max(*series);
    }
    nearest
}

/// The keys of the held rows in each lane, in order. A row whose limiter is nearer than that of every written row of its
/// series pairs with none and is left out.
pub fn held_lanes(rows: &Rows) -> [Vec<u64>; 2] {
    let nearest = nearest(rows);
    let fits = |row: &Row| row.held && nearness(row) <= nearest[row.series_number];
    let mut lanes = [0, 1].map(|_| Vec::with_capacity(rows.list.len()));
    for (number, row) in rows.list.iter().enumerate().filter(|(_, row)| fits(row)) {
        for (lane, place) in lanes.iter_mut().zip(places(row)) {
            lane.push(place + number as u64);
        }
    }
    for lane in &mut lanes {
        lane.sort_unstable();
    }
    lanes
}

/// The keys of the written rows, upwards.
pub fn written_keys(rows: &Rows) -> Vec<u64> {
    let written = rows.list.iter().enumerate().filter(|(_, row)| row.written);
    let mut keys: Vec<u64> = written.map(|(number, row)| places(row)[0] + number as u64).collect();
    keys.sort_unstable();
    keys
}
