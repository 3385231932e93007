//! Measures the proved engine against the same work in Rust, from bytes to lines, and prints the tables of
//! docs/PERFORMANCE.md. Every program's answer is compared with the engine's before it is timed.

use std::cell::RefCell;
use std::hint::black_box;

use bench::day::{day_account, DAY};
use bench::factors::Tables;
use bench::instalments::{counts, ALLOWANCE};
use bench::load::{engine_load, seeds};
use bench::shapes::{account, Shape, SHAPES};
use bench::timing::{measure, measure_each, rounds_asked};
use bench::ways::{lanes, repeated_search, tournament};
use bench::{empty, pairs_in, value, List};
use reference::day::{apply_day, Day};
use reference::factors::Factors;
use reference::instalments::{amount_so_far, pair_into, take_apart_in};
use reference::lines::{margin_into_by, Entry};
use reference::load::load;
use reference::position::one_position;
use reference::reader::{distance, Refusal};

/// Line count and total, or the refusal.
type Answer = Result<(usize, i64), Refusal>;
type Program = fn(&[u8], &mut [Entry]) -> Answer;
type PositionProgram = fn(&[u8], u64) -> i64;
type FactorsProgram<'a> = &'a dyn Fn(u64, u64) -> Result<Factors, Refusal>;
type DayProgram = fn(&mut [u8], &Day) -> Result<(), Refusal>;
type LoadProgram = fn(u64, u64, &mut [u8]) -> Result<usize, Refusal>;

const PROGRAMS: [Program; 4] = [
    engine,
    |file, list| margin_into_by(file, list, repeated_search::pairs),
    |file, list| margin_into_by(file, list, lanes::pairs),
    |file, list| margin_into_by(file, list, tournament::pairs),
];
const POSITION_PROGRAMS: [PositionProgram; 2] = [library::position_amount, one_position];
const DAY_PROGRAMS: [DayProgram; 2] = [engine_day, apply_day];
const LOAD_PROGRAMS: [LoadProgram; 2] = [engine_load, load];
const SIZES: [u32; 5] = [16, 32, 64, 128, 256];
const LOAD_SIZES: [u64; 3] = [1, 16, 256];
/// Calls in one measurement of the factors, the codes in turn, of a day, or of the load, each with a seed of its own: one call
/// can be shorter than a look at the clock.
const CALLS: usize = 100;

fn engine(file: &[u8], list: &mut [Entry]) -> Answer {
    let margin = library::margin(file, list);
    match margin.refusal {
        0 => Ok((margin.lines as usize, margin.total as i64)),
        number => Err(Refusal { number: number as i64, row: margin.row as usize }),
    }
}

/// The number of pairs. Each program's answer must be the engine's.
fn compare(shape: &Shape, file: &[u8]) -> usize {
    let answers = PROGRAMS.map(|program| {
        let mut list = empty();
        (program(file, &mut list), list)
    });
    for answer in &answers[1..] {
        assert!(*answer == answers[0], "{}: the programs differ", shape.name);
    }
    assert!(answers[0].0.is_ok(), "{}: refused", shape.name);
    pairs_in(&answers[0].1)
}

fn times(rounds: usize, file: &[u8]) -> [f64; 4] {
    let calls = PROGRAMS.map(|program| {
        move || {
            let mut list = empty();
            black_box(program(black_box(file), black_box(&mut list))).ok();
        }
    });
    let [a, b, c, d] = &calls;
    measure(rounds, [a, b, c, d])
}

/// The engine's times.
fn margin_table(rounds: usize, size: u32) -> Vec<f64> {
    println!("\n### {size} rows\n");
    print!("| shape | pairs | engine | repeated search | lanes | tournament");
    println!(" | search / engine | engine / lanes | engine / tournament |");
    println!("|---|---|---|---|---|---|---|---|---|");
    let mut engine = Vec::new();
    for shape in &SHAPES {
        let file = account(shape, size);
        let pairs = compare(shape, &file);
        assert!(shape.pairs == (pairs > 0));
        let [own, search, lanes, tournament] = times(rounds, &file);
        print!(
            "| {} | {pairs} | {own:.1} | {search:.1} | {lanes:.1} | {tournament:.1}",
            shape.name
        );
        println!(" | {:.1} | {:.1} | {:.1} |", search / own, own / lanes, own / tournament);
        engine.push(own);
    }
    engine
}

fn growth_table(engine: &[Vec<f64>]) {
    println!("\n### Growth of the engine's time\n");
    println!("| shape | 32 / 16 | 64 / 32 | 128 / 64 | 256 / 128 |");
    println!("|---|---|---|---|---|");
    for (number, shape) in SHAPES.iter().enumerate() {
        print!("| {} |", shape.name);
        for sizes in engine.windows(2) {
            print!(" {:.1} |", sizes[1][number] / sizes[0][number]);
        }
        println!();
    }
}

fn position_table(rounds: usize) {
    println!("\n### One position's amount\n");
    println!("| rows | engine | Rust reader | engine / Rust |");
    println!("|---|---|---|---|");
    for size in SIZES {
        let file = &account(&SHAPES[1], size);
        let row = u64::from(size) - 2;
        let [engine, rust] = POSITION_PROGRAMS.map(|program| program(file, row));
        assert!(engine == rust && engine > 0);
        let [engine, rust] = &POSITION_PROGRAMS.map(|program| {
            move || {
                black_box(program(black_box(file), black_box(row)));
            }
        });
        let [engine, rust] = measure(rounds, [engine, rust]);
        println!("| {size} | {engine:.2} | {rust:.2} | {:.2} |", engine / rust);
    }
}

fn engine_factors(code: u64, days: u64) -> Result<Factors, Refusal> {
    let factors = library::factors(code, days);
    match factors.refusal {
        0 => Ok(Factors { fa: factors.fa as i64, fb: factors.fb as i64 }),
        number => Err(Refusal { number: number as i64, row: factors.row as usize }),
    }
}

fn factors_table(rounds: usize) {
    println!("\n### The factors of a code and a number of days\n");
    println!("| days | engine | Rust loop | engine / Rust |");
    println!("|---|---|---|---|");
    let tables = Tables::default();
    let rust_loop = |code: u64, days: u64| tables.factors(code, days);
    let programs: [FactorsProgram; 2] = [&engine_factors, &rust_loop];
    for days in [0, 90, 360, 1_800] {
        assert!((0..4).all(|code| engine_factors(code, days) == rust_loop(code, days)));
        let [engine, rust] = &programs.map(|program| {
            move || {
                for code in (0..4).cycle().take(CALLS) {
                    black_box(program(black_box(code), black_box(days))).ok();
                }
            }
        });
        let [engine, rust] = measure(rounds, [engine, rust]).map(|time| time / CALLS as f64);
        println!("| {days} | {engine:.3} | {rust:.3} | {:.2} |", engine / rust);
    }
}

fn engine_day(file: &mut [u8], day: &Day) -> Result<(), Refusal> {
    value(library::day(file, day.series, day.high, day.low, day.close)).map(|_| ())
}

/// The reference's answer and bytes must be the engine's, and the day must have changed the file.
fn compare_day(file: &[u8]) {
    let [engine, reference] = DAY_PROGRAMS.map(|program| {
        let mut bytes = file.to_vec();
        (program(&mut bytes, &DAY), bytes)
    });
    assert!(engine == reference, "a day: the programs differ");
    assert!(engine.0.is_ok() && engine.1 != file);
}

/// What is measured is a day that sets flags. The same day once more would set none, so the file is copied anew before each
/// call, over the bytes that the last call changed. The copy is part of both times, about a twentieth of the engine's.
fn day_table(rounds: usize) {
    println!("\n### A day of a series\n");
    println!("Each call is on a fresh copy of the file, and the copying is included.\n");
    println!("| rows | engine | reference | engine / reference |");
    println!("|---|---|---|---|");
    for size in SIZES {
        let file = &day_account(size);
        compare_day(file);
        let [engine, reference] = &DAY_PROGRAMS.map(|program| {
            move || {
                let mut bytes = file.clone();
                for _ in 0..CALLS {
                    bytes.copy_from_slice(black_box(file));
                    black_box(program(black_box(&mut bytes), black_box(&DAY))).ok();
                }
            }
        });
        let times = measure(rounds, [engine, reference]);
        let [engine, reference] = times.map(|time| time / CALLS as f64);
        println!("| {size} | {engine:.2} | {reference:.2} | {:.2} |", engine / reference);
    }
}

/// The reference's answer and bytes must be the engine's, in a buffer of one byte more than the file.
fn compare_load(seed: u64, p: u64) {
    let [engine, reference] = LOAD_PROGRAMS.map(|program| {
        let mut buffer = vec![0xFF; distance(1, p as usize) + 1];
        (program(seed, p, &mut buffer), buffer)
    });
    assert!(engine == reference, "the load of seed {seed}, {p} rows: the programs differ");
    assert!(engine.0.is_ok());
}

fn load_table(rounds: usize) {
    println!("\n### The load\n");
    println!("{CALLS} seeds at random, into one buffer.\n");
    println!("| rows | engine | reference | engine / reference |");
    println!("|---|---|---|---|");
    let seeds: &Vec<u64> = &seeds().take(CALLS).collect();
    SIZES.iter().for_each(|size| compare_load(1, u64::from(*size)));
    for size in LOAD_SIZES {
        seeds.iter().for_each(|seed| compare_load(*seed, size));
        let [engine, reference] = &LOAD_PROGRAMS.map(|program| {
            move || {
                let mut buffer = vec![0; distance(1, size as usize)];
                for seed in seeds {
                    black_box(program(black_box(*seed), size, black_box(&mut buffer))).ok();
                }
            }
        });
        let times = measure(rounds, [engine, reference]);
        let [engine, reference] = times.map(|time| time / CALLS as f64);
        println!("| {size} | {engine:.3} | {reference:.3} | {:.2} |", engine / reference);
    }
}

/// The lines of the margin. Made in instalments, its pairs and the amounts between must be the reference's, and the last
/// amount the total.
fn compare_instalments(file: &[u8]) -> List {
    let [mut list, mut made, mut expected] = [empty(); 3];
    let (_, total) = engine(file, &mut list).expect("the engine's margin");
    let pairs = pairs_in(&list);
    for count in counts(pairs) {
        let amount = value(library::amount_so_far(file, &made, count));
        assert!(amount == amount_so_far(file, &expected, count).map(|amount| amount as u64));
        let number = value(library::pair(file, &mut made, count, ALLOWANCE));
        assert!(number == pair_into(file, &mut expected, count, ALLOWANCE) && made == expected);
    }
    assert!(made[..pairs] == list[..pairs]);
    assert!(value(library::amount_so_far(file, &made, pairs as u64)) == Ok(total as u64));
    list
}

/// Times of one margin and of all instalments together, of the longest call among these, and of the longest for the amount
/// before one of them. A call finds its lines in the list that all calls share, and writes there what stood there.
fn instalment_times(rounds: usize, file: &[u8], list: List) -> [f64; 4] {
    let (pairs, list) = (pairs_in(&list), &RefCell::new(list));
    let pair = move |count| {
        black_box(library::pair(black_box(file), &mut *list.borrow_mut(), count, ALLOWANCE));
    };
    let margin = || {
        black_box(library::margin(black_box(file), &mut *list.borrow_mut()));
    };
    let [margin, all] = measure(rounds, [&margin, &|| counts(pairs).for_each(pair)]);
    let calls: Vec<_> = counts(pairs).map(|count| move || pair(count)).collect();
    let amounts = counts(pairs).map(|count| {
        move || {
            black_box(library::amount_so_far(black_box(file), &*list.borrow(), count));
        }
    });
    let longest = |times: Vec<f64>| times.into_iter().fold(0.0, f64::max);
    let call = longest(measure_each(rounds, &calls));
    [margin, all, call, longest(measure_each(rounds, &amounts.collect::<Vec<_>>()))]
}

fn instalment_table(rounds: usize) {
    println!("\n### Pairing in instalments\n");
    println!("256 rows, {ALLOWANCE} pairs a call, up to the call that makes fewer.\n");
    print!("| shape | pairs | calls | margin | all calls | longest call | longest amount so far");
    println!(" | all / margin | call / margin | amount / margin |");
    println!("|---|---|---|---|---|---|---|---|---|---|");
    for shape in SHAPES.iter().filter(|shape| shape.pairs) {
        let file = &account(shape, 256);
        let list = compare_instalments(file);
        let pairs = pairs_in(&list);
        let [margin, all, call, amount] = instalment_times(rounds, file, list);
        print!("| {} | {pairs} | {}", shape.name, counts(pairs).count());
        print!(" | {margin:.1} | {all:.1} | {call:.1} | {amount:.1}");
        let [all, call, amount] = [all, call, amount].map(|time| time / margin);
        println!(" | {all:.1} | {call:.2} | {amount:.2} |");
    }
}

/// Of the list with all pairs the last `k` are taken apart as by the reference, and pairing again gives the list.
fn compare_apart(file: &[u8], list: &List, count: u64, k: u64) {
    let [mut apart, mut expected] = [*list; 2];
    let left = value(library::take_apart(file, &mut apart, count, k));
    assert!(left == take_apart_in(file, &mut expected, count, k) && apart == expected);
    assert!(left == Ok(count - k));
    assert!(value(library::pair(file, &mut apart, count - k, k)) == Ok(k) && apart == *list);
}

/// Times of one margin, of the call that makes the last `k` pairs, and of the one that takes them apart. Before this one their
/// lines are put back into the list, and that is included.
fn apart_times(rounds: usize, file: &[u8], whole: &List, count: usize, k: usize) -> [f64; 3] {
    let (left, list) = (count - k, &RefCell::new(*whole));
    let margin = || {
        black_box(library::margin(black_box(file), &mut *list.borrow_mut()));
    };
    let pair = || {
        black_box(library::pair(black_box(file), &mut *list.borrow_mut(), left as u64, k as u64));
    };
    let take_apart = || {
        let list = &mut *list.borrow_mut();
        list[left..count].copy_from_slice(&whole[left..count]);
        black_box(library::take_apart(black_box(file), list, count as u64, k as u64));
    };
    measure(rounds, [&margin, &pair, &take_apart])
}

fn apart_table(rounds: usize) {
    println!("\n### Taking pairs apart\n");
    println!("256 rows, of all pairs the last {ALLOWANCE}, or all where there are fewer.\n");
    print!("| shape | pairs | margin | pairing | taking apart");
    println!(" | apart / pairing | apart / margin |");
    println!("|---|---|---|---|---|---|---|");
    for shape in SHAPES.iter().filter(|shape| shape.pairs) {
        let (file, mut list) = (&account(shape, 256), empty());
        engine(file, &mut list).expect("the engine's margin");
        let pairs = pairs_in(&list);
        let k = pairs.min(ALLOWANCE as usize);
        compare_apart(file, &list, pairs as u64, k as u64);
        let [margin, pair, apart] = apart_times(rounds, file, &list, pairs, k);
        print!("| {} | {pairs} | {margin:.1} | {pair:.1} | {apart:.1}", shape.name);
        println!(" | {:.2} | {:.2} |", apart / pair, apart / margin);
    }
}

fn main() {
    let rounds = rounds_asked(30);
    println!("Microseconds a call, the best of {rounds} bursts of a millisecond each.");
    let engine: Vec<Vec<f64>> = SIZES.iter().map(|size| margin_table(rounds, *size)).collect();
    growth_table(&engine);
    position_table(rounds);
    factors_table(rounds);
    day_table(rounds);
    load_table(rounds);
    instalment_table(rounds);
    apart_table(rounds);
}
