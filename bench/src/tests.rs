//! Every way gives the lines and the total of the reference, and the tables its factors. The accounts at random are loads with
//! the rows asked for. They are the same on every machine, so that how many pairs the small accounts make, and how many single
//! positions of each kind are at the minimum margin, are exact numbers. The measured day touches about half of the barriers, and the measured instalments make all pairs.

use std::collections::HashSet;
use std::mem::discriminant;

use reference::account::{Barrier, Limiter, Position, Side};
use reference::day::apply_day;
use reference::draft::{DOWN_AND_IN, DOWN_AND_OUT, NO_BARRIER, UP_AND_IN, UP_AND_OUT};
use reference::factors::factors;
use reference::factors_list::codes_and_days;
use reference::instalments::pair_into;
use reference::lines::{margin_into, margin_into_by, Pairing};
use reference::position::written_unit_margin;
use reference::random::Random;
use reference::reader::read_account;
use reference::sample::{limited_alike, sample_account, some_blocked, Shape};

use crate::day::{day_account, DAY};
use crate::factors::Tables;
use crate::instalments::{counts, ALLOWANCE};
use crate::load::load;
use crate::shapes::{account, Rows, SHAPES};
use crate::small::{single_positions, small_accounts, KINDS};
use crate::ways::{lanes, repeated_search, tournament};
use crate::{empty, pairs_in};

const WAYS: [(&str, Pairing); 3] = [
    ("repeated search", repeated_search::pairs),
    ("lanes", lanes::pairs),
    ("tournament", tournament::pairs),
];

/// The number of pairs, which every way makes alike.
fn pairs_made(file: &[u8], name: &str) -> usize {
    let mut expected = empty();
    let answer = margin_into(file, &mut expected);
    assert!(answer.is_ok(), "{name}: {answer:?}");
    for (way, pairing) in WAYS {
        let mut found = empty();
        assert_eq!(margin_into_by(file, &mut found, pairing), answer, "{name}, {way}");
        assert!(found == expected, "{name}, {way}: other lines");
    }
    pairs_in(&expected)
}

#[test]
fn on_every_shape() {
    for shape in &SHAPES {
        for size in [0, 1, 2, 3, 16, 17, 32, 64, 128, 255, 256] {
            if size == 0 && matches!(shape.rows, Rows::Load(_)) {
                continue;
            }
            let pairs = pairs_made(&account(shape, size), shape.name);
            assert!(size < 16 || shape.pairs == (pairs > 0), "{}", shape.name);
        }
    }
}

#[test]
fn on_random_accounts() {
    let few = Shape {
        series: (1, 4),
        positions: (1, 40),
        pv: (2, 60),
        quantity: (1, 9),
        m: (1, 9),
        fb_above_one: true,
    };
    let all_prices = Shape { pv: (1, 10_000_000), quantity: (1, 100_000), m: (1, 1_000), ..few };
    let crowded = Shape { series: (1, 1), positions: (60, 120), ..few };
    let most = Shape { series: (1, 32), positions: (256, 256), pv: (900, 4_000), ..few };
    let mut random = Random::new(3);
    for (name, shape, count) in [
        ("few rows", few, 3_000),
        ("all prices", all_prices, 1_000),
        ("one series", crowded, 100),
        ("256 rows", most, 20),
    ] {
        let mut pairs = 0;
        for _ in 0..count {
            let draft = sample_account(&mut random, &shape);
            pairs += pairs_made(&draft.bytes(), name);
            let limited = limited_alike(&mut random, draft);
            pairs += pairs_made(&limited.bytes(), name);
            pairs += pairs_made(&some_blocked(&mut random, limited).bytes(), name);
        }
        assert!(pairs > 2 * count, "{name}: {pairs} pairs");
    }
}

#[test]
fn on_small_accounts() {
    let files = small_accounts();
    let pairs: usize = files.iter().map(|file| pairs_made(file, "small accounts")).sum();
    assert_eq!((pairs, files.len()), (1_210, 4_096));
}

/// The rows of a load: of one series, European, and with nothing beside a barrier and its rebate.
fn rows_of_load(file: &[u8]) -> Vec<Position> {
    let account = read_account(file).unwrap();
    assert_eq!(account.series.len(), 1);
    for row in &account.positions {
        assert!(row.european && !row.opened_before_annex && row.limiter == Limiter::Absent);
        assert_eq!((row.blocked, row.premium), (0, 0));
    }
    account.positions
}

#[test]
fn accounts_at_random_are_loads() {
    let shape = SHAPES.iter().find(|shape| shape.name == "load, seed 1").expect("the load");
    for p in [1, 16, 255, 256] {
        let file = load(1, u64::from(p));
        assert_eq!(rows_of_load(&file).len(), p as usize);
        assert!(account(shape, p) == file && day_account(p) == file);
    }
    let rows: HashSet<_> = small_accounts().iter().map(|file| rows_of_load(file).len()).collect();
    assert_eq!(rows, (2..=8).collect());
}

#[test]
fn single_positions_are_loads_of_their_kinds() {
    for (name, kinds) in KINDS {
        let files = single_positions(kinds);
        let rows: Vec<_> = files.iter().map(|file| rows_of_load(file)).collect();
        assert!(rows.iter().all(|rows| rows.len() == 1 && rows[0].side == Side::Written), "{name}");
        let met: HashSet<_> = rows.iter().map(|rows| kind(&rows[0])).collect();
        assert_eq!(met, kinds.iter().copied().collect(), "{name}");
    }
}

fn kind(row: &Position) -> u8 {
    match row.barrier {
        Barrier::None => NO_BARRIER,
        Barrier::UpAndIn(_) => UP_AND_IN,
        Barrier::DownAndIn(_) => DOWN_AND_IN,
        Barrier::UpAndOut(_) => UP_AND_OUT,
        Barrier::DownAndOut(_) => DOWN_AND_OUT,
    }
}

/// Is the unit margin of the file's first row the minimum margin?
fn at_minimum(file: &[u8]) -> bool {
    let account = read_account(file).unwrap();
    let series = account.series_of(0);
    written_unit_margin(series, &account.positions[0].terms()) == series.minimum_margin()
}

/// Of 32,768 single positions of each of the KINDS, in their order, how many are at the minimum margin: between a quarter and
/// three quarters, but of the down-and-in ones, most of whose barriers are out of reach, five in six.
const AT_MINIMUM: [usize; 6] = [17_039, 13_338, 17_193, 27_324, 14_076, 13_464];

#[test]
fn single_positions_at_and_above_the_minimum() {
    for ((name, kinds), expected) in KINDS.into_iter().zip(AT_MINIMUM) {
        let files = single_positions(kinds);
        let least = files.iter().filter(|file| at_minimum(file)).count();
        assert_eq!((least, files.len()), (expected, 32_768), "{name}");
    }
}

#[test]
fn factors_from_tables() {
    let tables = Tables::default();
    for (code, days) in codes_and_days() {
        assert_eq!(tables.factors(code, days), factors(code, days), "{code} {days}");
    }
}

/// How many rows have a barrier, and how many of these have flag 1 or 16.
fn barriers_and_touched(file: &[u8]) -> (usize, usize) {
    let account = read_account(file).unwrap();
    let barriers = account.positions.iter().filter(|row| row.barrier != Barrier::None);
    let touched = barriers.clone().filter(|row| row.already_knocked_in || row.already_knocked_out);
    (barriers.count(), touched.count())
}

#[test]
fn the_day_touches_about_half_of_the_barriers() {
    for size in [16, 32, 64, 128, 256] {
        let mut file = day_account(size);
        let account = read_account(&file).unwrap();
        let kinds: HashSet<_> =
            account.positions.iter().map(|row| discriminant(&row.barrier)).collect();
        assert_eq!((account.series.len(), account.positions.len()), (1, size as usize));
        assert_eq!(kinds.len(), 5, "{size} rows: the kinds of barrier and none");

        let (barriers, touched) = barriers_and_touched(&file);
        assert_eq!(touched, 0, "{size} rows: touched before the day");
        assert_eq!(apply_day(&mut file, &DAY), Ok(()));
        let (_, touched) = barriers_and_touched(&file);
        let about_half = barriers / 3..=2 * barriers / 3;
        assert!(about_half.contains(&touched), "{size} rows: {touched} of {barriers}");
    }
}

#[test]
fn the_instalments_make_all_pairs() {
    for shape in SHAPES.iter().filter(|shape| shape.pairs) {
        let file = account(shape, 64);
        let [mut whole, mut made] = [empty(); 2];
        assert!(margin_into(&file, &mut whole).is_ok());
        let pairs = pairs_in(&whole);
        let numbers: Vec<u64> = counts(pairs)
            .map(|count| pair_into(&file, &mut made, count, ALLOWANCE).unwrap())
            .collect();
        let (last, before) = numbers.split_last().unwrap();
        assert!(before.iter().all(|number| *number == ALLOWANCE) && *last < ALLOWANCE);
        assert!(made[..pairs] == whole[..pairs], "{}", shape.name);
        assert_eq!(pairs_in(&made), pairs, "{}", shape.name);
    }
}

/// Of the shapes with blocked contracts one has a left line for every held row beside its pairs, and the other no pair.
#[test]
fn lines_of_blocked_contracts() {
    let lines = |name: &str| {
        let shape = SHAPES.iter().find(|shape| shape.name == name).expect(name);
        let mut list = empty();
        let (lines, _) = margin_into(&account(shape, 256), &mut list).expect("accepted");
        let of_held = list[..lines].iter().filter(|line| line[0] == 2 && line[1] % 2 == 1);
        (pairs_in(&list), of_held.count())
    };
    let (pairs, held) = lines("held rows blocked in part");
    assert!(pairs > 100 && held == 128, "{pairs} {held}");
    assert_eq!(lines("nothing pairs: blocked"), (0, 128));
}
