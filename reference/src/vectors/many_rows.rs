//! 256 rows, 32 series.

use super::rows::{checked_series, held, written};
use super::{Cases, SEED};
use crate::draft::{Draft, PositionDraft, SeriesDraft, CALL, HELD, WRITTEN};
use crate::random::Random;
use crate::sample::{sample_account, Shape};

pub fn add(cases: &mut Cases) {
    cases.begin("many rows");
    for (name, rows) in rows_of_a_pattern() {
        cases.accept(name, Draft::new(checked_series(), rows));
    }
    let mut random = Random::new(SEED + 2);
    for (series, rows) in [(1, 256), (32, 256), (32, 1), (32, 40), (2, 60), (7, 100), (31, 255)] {
        for number in 0..2 {
            let shape = Shape { fb_above_one: number == 1, ..shape(series, rows, 300, 50) };
            let draft = sample_account(&mut random, &shape);
            cases.accept(format!("{series} series, {rows} rows, {number}"), draft);
        }
    }
    // The last series only.
    let mut draft = sample_account(&mut random, &shape(32, 1, 9, 9));
    draft.series[31] = SeriesDraft::checked(CALL);
    draft.positions = vec![written(31, 3100, 10), held(31, 3250, 4), held(31, 3000, 3)];
    cases.accept("rows of series 31 only", draft);
}

/// So many series and rows, and the most contracts and M.
fn shape(series: i64, rows: i64, quantity: i64, m: i64) -> Shape {
    Shape {
        series: (series, series),
        positions: (rows, rows),
        pv: (900, 4000),
        quantity: (1, quantity),
        m: (1, m),
        fb_above_one: false,
    }
}

fn rows_of_a_pattern() -> [(&'static str, Vec<PositionDraft>); 5] {
    let all = |make: &dyn Fn(u32) -> PositionDraft| (0..256).map(make).collect();
    let alternating = |row: u32| {
        let strike = 2900 + (row * 37) % 401;
        PositionDraft::plain((row / 2 % 2) as u16, (row % 2) as u8, strike, 1 + row * 7 % 13)
    };
    let held_first = |row: u32| PositionDraft::plain(0, u8::from(row >= 128), 3000 + row % 16, 5);
    let of_side = |side: u8| move |row: u32| PositionDraft::plain(1, side, 1 + row * 20, 1);
    // 255 pairs and one left.
    let one_written = |row: u32| match row {
        0 => written(0, 3000, 100_000),
        _ => held(0, 2999 + row % 7, row),
    };
    [
        ("256 rows, two series", all(&alternating)),
        ("128 held, then 128 written", all(&held_first)),
        ("256 held rows", all(&of_side(HELD))),
        ("256 written rows", all(&of_side(WRITTEN))),
        ("one written against 255 held", all(&one_written)),
    ]
}
