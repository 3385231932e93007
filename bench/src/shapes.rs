//! Accounts in the shapes that are measured.

use reference::draft::{
    Draft, PositionDraft, SeriesDraft, CALL, HELD, UP_AND_IN, UP_AND_OUT, WRITTEN,
};
use reference::random::Random;

use crate::load::load;

/// What a shape makes of row i of n.
type Change = fn(&mut Random, u32, u32, &mut PositionDraft);

pub struct Shape {
    pub name: &'static str,
    /// Do its rows pair?
    pub pairs: bool,
    pub rows: Rows,
}

pub enum Rows {
    /// Of so many call series, written and held by turns.
    Made(usize, Change),
    /// The load of this seed. It has at least one row.
    Load(u64),
}

const fn shape(name: &'static str, pairs: bool, series: usize, change: Change) -> Shape {
    Shape { name, pairs, rows: Rows::Made(series, change) }
}

pub const SHAPES: [Shape; 21] = [
    shape("one strike for all", true, 1, |_, _, _, row| row.strike = 3100),
    shape("random strikes", true, 1, |_, _, _, _| ()),
    shape("ascending strikes", true, 1, |_, i, _, row| row.strike = 2900 + i),
    shape("written at one strike", true, 1, |_, _, _, row| {
        if row.side == WRITTEN {
            row.strike = 3100;
        }
    }),
    shape("held at one strike", true, 1, |_, _, _, row| {
        if row.side == HELD {
            row.strike = 3100;
        }
    }),
    shape("eight series", true, 8, |random, _, _, row| row.series = random.between(0, 7) as u16),
    Shape { name: "load, seed 1", pairs: true, rows: Rows::Load(1) },
    shape("knock-outs alone", true, 1, |random, _, _, row| {
        up_and_out(row, random.between(3300, 3799) as u32)
    }),
    shape("hostile", true, 1, hostile),
    shape("hostile, nearest last", true, 1, |random, i, n, row| hostile(random, n - 1 - i, n, row)),
    shape("hostile knock-outs", true, 1, hostile_knock_out),
    shape("hostile knock-outs, own rebates", true, 1, |random, i, n, row| {
        hostile_knock_out(random, i, n, row);
        if row.side == WRITTEN {
            row.rebate = 1 + i;
        }
    }),
    shape("limiters that pair", true, 1, |_, i, _, row| {
        *row = row.with_limiter(row.strike + 1 + i);
    }),
    shape("limiters, all but one barred", true, 1, |random, i, n, row| {
        // The last held row has none.
        if row.side == WRITTEN || i + 2 < n {
            limiters(random, i, n, row);
        }
    }),
    shape("hostile limiters", true, 1, |random, i, n, row| {
        limiters(random, i, n, row);
        if i == 0 {
            // The nearest of all: no held limiter bars a pair with this row.
            *row = row.with_limiter(3300);
        }
    }),
    shape("held rows blocked in part", true, 1, |_, _, _, row| {
        if row.side == HELD {
            row.quantity += 1;
            row.blocked = row.quantity / 2;
        }
    }),
    shape("nothing pairs: blocked", false, 1, |_, _, _, row| {
        if row.side == HELD {
            row.blocked = row.quantity;
        }
    }),
    shape("nothing pairs: limiters", false, 1, limiters),
    shape("nothing pairs: held rows limited", false, 1, |random, i, n, row| {
        if row.side == HELD {
            limiters(random, i, n, row);
        }
    }),
    shape("nothing pairs: knocked in", false, 1, |random, i, n, row| {
        limiters(random, i, n, row);
        *row = row.with_barrier(UP_AND_IN, 3300, 0).knocked_in();
    }),
    shape("nothing pairs: knock-outs", false, 1, |_, _, _, row| {
        up_and_out(row, if row.side == WRITTEN { 3600 } else { 3500 })
    }),
];

fn up_and_out(row: &mut PositionDraft, barrier: u32) {
    *row = row.with_barrier(UP_AND_OUT, barrier, 20);
}

/// A limiter of its own on each row, every held one nearer than every written one.
fn limiters(_: &mut Random, i: u32, _: u32, row: &mut PositionDraft) {
    *row = row.with_limiter(if row.side == WRITTEN { 3600 + i } else { 3300 + i });
}

/// All written rows at one strike with 100,000 contracts, held rows above them with 1 to 3.
fn hostile(random: &mut Random, i: u32, _: u32, row: &mut PositionDraft) {
    if row.side == WRITTEN {
        row.strike = 3100;
        row.quantity = 100_000;
    } else {
        row.strike = 3101 + i;
        row.quantity = random.between(1, 3) as u32;
    }
}

fn hostile_knock_out(random: &mut Random, i: u32, n: u32, row: &mut PositionDraft) {
    hostile(random, i, n, row);
    up_and_out(row, if row.side == WRITTEN { 3500 } else { 3600 });
}

/// An account of n rows in a shape.
pub fn account(shape: &Shape, n: u32) -> Vec<u8> {
    match shape.rows {
        Rows::Made(series, change) => made(series, change, n),
        Rows::Load(seed) => load(seed, u64::from(n)),
    }
}

fn made(series: usize, change: Change, n: u32) -> Vec<u8> {
    let mut random = Random::new(1);
    let row = |i: u32| {
        let side = [WRITTEN, HELD][i as usize % 2];
        let quantity = random.between(1, 100) as u32;
        let strike = random.between(2900, 3299) as u32;
        let mut row = PositionDraft::plain(0, side, strike, quantity);
        change(&mut random, i, n, &mut row);
        row
    };
    let rows = (0..n).map(row).collect();
    Draft::new(vec![SeriesDraft::checked(CALL); series], rows).bytes()
}
