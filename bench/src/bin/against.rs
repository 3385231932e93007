//! Measures an earlier archive of the library and today's in one process, by turns, for `bash bench/against`. Their answers
//! are compared first, and each row of the tables says whether they are the same.

use std::cell::RefCell;
use std::hint::black_box;

use bench::shapes::{account, SHAPES};
use bench::small::{single_positions, small_accounts, KINDS};
use bench::timing::{measure, rounds_asked};
use bench::{empty, pairs_in, List};
use library::{earlier, Line, Margin};

type MarginProgram = fn(&[u8], &mut [Line]) -> Margin;
type AmountProgram = fn(&[u8], u64) -> i64;

/// The earlier archive's, then today's.
const MARGINS: [MarginProgram; 2] = [earlier::margin, library::margin];
const AMOUNTS: [AmountProgram; 2] = [earlier::position_amount, library::position_amount];
const SIZES: [u32; 2] = [16, 256];

/// Both answers for a file, each with its lines.
fn margins(file: &[u8]) -> [(Margin, List); 2] {
    MARGINS.map(|margin| {
        let mut list = empty();
        (margin(file, &mut list), list)
    })
}

/// Microseconds of each program's call, over all files one after another.
fn times(rounds: usize, files: &[Vec<u8>], programs: [impl Fn(&[u8]); 2]) -> [f64; 2] {
    let [earlier, today] = &programs.map(|program| {
        move || {
            for file in files {
                program(black_box(file));
            }
        }
    });
    measure(rounds, [earlier, today]).map(|time| time / files.len() as f64)
}

/// Measures the margins of all files. One list is lent again and again, as in a run over many accounts.
fn margin_row(rounds: usize, name: &str, files: &[Vec<u8>]) {
    let same = files.iter().map(|file| margins(file)).all(|[earlier, today]| earlier == today);
    let pairs: usize = files.iter().map(|file| pairs_in(&margins(file)[1].1)).sum();
    let list = &RefCell::new(empty());
    let programs = MARGINS.map(|margin| {
        move |file: &[u8]| {
            black_box(margin(file, &mut *list.borrow_mut()));
        }
    });
    print_row(&format!("{name} | {pairs}"), times(rounds, files, programs), same);
}

/// Measures the amount of the first row of all files.
fn amount_row(rounds: usize, name: &str, files: &[Vec<u8>]) {
    let amounts = |file: &Vec<u8>| AMOUNTS.map(|amount| amount(file, 0));
    let same = files.iter().map(amounts).all(|[earlier, today]| earlier == today);
    let programs = AMOUNTS.map(|amount| {
        move |file: &[u8]| {
            black_box(amount(file, black_box(0)));
        }
    });
    print_row(name, times(rounds, files, programs), same);
}

fn print_heading(title: &str, columns: &[&str]) {
    println!("\n### {title}\n");
    let columns = [columns, &["earlier", "today", "today / earlier", "same answer"]].concat();
    println!("| {} |", columns.join(" | "));
    println!("|{}", "---|".repeat(columns.len()));
}

fn print_row(first_columns: &str, [earlier, today]: [f64; 2], same: bool) {
    let ratio = today / earlier;
    let [earlier, today] = [earlier, today].map(with_decimals);
    let same = if same { "yes" } else { "no" };
    println!("| {first_columns} | {earlier} | {today} | {ratio:.2} | {same} |");
}

fn with_decimals(time: f64) -> String {
    let decimals = if time < 1.0 { 3 } else { 2 };
    format!("{time:.decimals$}")
}

fn shape_table(rounds: usize, size: u32) {
    print_heading(&format!("{size} rows"), &["shape", "pairs"]);
    for shape in &SHAPES {
        margin_row(rounds, shape.name, &[account(shape, size)]);
    }
}

/// Accounts of 2 to 8 rows, one after another.
fn small_table(rounds: usize) {
    print_heading("Small accounts", &["accounts", "pairs"]);
    let files = small_accounts();
    margin_row(rounds, &files.len().to_string(), &files);
}

/// The amounts of written rows, one after another.
fn amount_table(rounds: usize) {
    print_heading("Single positions", &["barrier"]);
    for (name, kinds) in KINDS {
        amount_row(rounds, name, &single_positions(kinds));
    }
}

fn main() {
    let rounds = rounds_asked(160);
    println!("Microseconds a call, the best of {rounds} bursts of a millisecond each, by turns.");
    for size in SIZES {
        shape_table(rounds, size);
    }
    small_table(rounds);
    amount_table(rounds);
}
