//! Up to 2 × p − 1 lines (document 02 [9]): every held row has a pair line and,
//! for its blocked contracts, a left line.

use super::rows::{held, one_series, written};
use super::Cases;
use crate::draft::{Draft, PositionDraft, CALL, PUT};

pub fn add(cases: &mut Cases) {
    cases.begin("blocked, lines");
    for type_byte in [CALL, PUT] {
        for rows in [1, 2, 3, 8, 256] {
            let name = format!("type {type_byte}, {rows} rows, {} lines", 2 * rows - 1);
            cases.accept(name, one_against_all(type_byte, rows));
        }
        for written_rows in [2, 3, 128] {
            several_written(cases, type_byte, written_rows);
        }
        in_a_chain(cases, type_byte);
        none_used(cases, type_byte);
    }
}

/// The strike that is so many ticks worse to hold than 3000.
fn worse(type_byte: u8, ticks: u32) -> u32 {
    if type_byte == CALL {
        3000 + ticks
    } else {
        3000 - ticks
    }
}

/// One written row with contracts for all, and held rows of which each has one
/// contract blocked; a row alone is held.
fn one_against_all(type_byte: u8, rows: u32) -> Draft {
    let of = |number: u32| {
        held(0, worse(type_byte, number), 2 + number % 7).with_blocked(1).with_premium(number % 3)
    };
    let held_rows = (0..rows.max(2) - 1).map(of);
    let mut all: Vec<PositionDraft> = match rows {
        1 => vec![],
        _ => vec![written(0, 3000, 100_000)],
    };
    all.extend(held_rows);
    one_series(type_byte, all)
}

/// No written row is spent: 2 × p less the written rows. With more than one of
/// them there are never 2 × p − 1 lines.
fn several_written(cases: &mut Cases, type_byte: u8, written_rows: u32) {
    let rows = (0..256).map(|number| {
        if number < written_rows {
            written(0, worse(type_byte, number % 16), 100_000)
        } else {
            held(0, worse(type_byte, number % 19), 5).with_blocked(1 + number % 4)
        }
    });
    let lines = 512 - written_rows;
    let name = format!("type {type_byte}, {written_rows} written of 256 rows, {lines} lines");
    cases.accept(name, one_series(type_byte, rows.collect()));
}

/// Each held row is used by two written ones and each written row by two held
/// ones, the difference one tick more each time: 255 pairs, and of the 128 held
/// rows the blocked contracts left.
fn in_a_chain(cases: &mut Cases, type_byte: u8) {
    let better = |ticks: u32| 6000 - worse(type_byte, ticks);
    let rows = (0..128).flat_map(|number| {
        let bought = held(0, worse(type_byte, number + 1), 3).with_blocked(1);
        [written(0, better(number), 2), bought]
    });
    let mut rows: Vec<PositionDraft> = rows.collect();
    rows[0].quantity = 1;
    let name = format!("type {type_byte}, 256 rows in a chain, 383 lines");
    cases.accept(name, one_series(type_byte, rows));
}

/// 256 lines, all of them left: the held rows wholly blocked.
fn none_used(cases: &mut Cases, type_byte: u8) {
    let rows = (0..256).map(|number| match number % 2 {
        0 => written(0, 3000 + number, 1 + number % 9),
        _ => held(0, 3000 + number, 1 + number % 9).with_blocked(1 + number % 9),
    });
    let name = format!("type {type_byte}, 256 rows, every held one wholly blocked");
    cases.accept(name, one_series(type_byte, rows.collect()));
}
