//! The days and their files do what they were made for.

use reference::account::{Account, Barrier};
use reference::day::{apply_day, day_output, Day};
use reference::day_vectors::{all_days, stdin_bytes, stdout_bytes, DayCase, Expect};
use reference::reader::{distance, read_account, Refusal};

const HIGHEST: u64 = 10_000_000;

/// The days that are applied, each with its account.
fn applied() -> Vec<(DayCase, Account)> {
    let with_account = |case: DayCase| {
        let account = read_account(&case.file).ok()?;
        apply_day(&mut case.file.clone(), &case.day).ok()?;
        Some((case, account))
    };
    all_days().into_iter().filter_map(with_account).collect()
}

#[test]
fn every_day_is_applied_or_refused_as_it_was_made() {
    for case in all_days() {
        let mut bytes = case.file.clone();
        let found = apply_day(&mut bytes, &case.day);
        let name = format!("{}: {}", case.group, case.name);
        match case.expect {
            Expect::After(expected) => {
                assert_eq!(found, Ok(()), "{name}");
                assert!(bytes == expected, "{name}");
            }
            Expect::Refused(number, row) => {
                assert_eq!(found, Err(Refusal { number, row }), "{name}");
            }
            Expect::Open => {}
        }
        // On every refusal the bytes keep their content.
        assert!(found.is_ok() || bytes == case.file, "{name}");
    }
}

/// Every refusal of the reading with a day that would be refused itself, and
/// with one that would not; those of a row at row 0 and at a later one.
#[test]
fn every_refusal() {
    let cases = all_days();
    assert_eq!(cases.len(), 553);
    for number in [1, 2, 4, 5, 6, 7, 8, 9, 10, 11] {
        let found: Vec<(bool, bool, usize)> = cases
            .iter()
            .filter_map(|case| match case.expect {
                Expect::Refused(given, row) if given == number => {
                    Some((case.day.series > 31, wrong_prices(&case.day), row))
                }
                _ => None,
            })
            .collect();
        for wrong in [(false, false), (false, true), (true, true)] {
            assert!(found.iter().any(|f| (f.0, f.1) == wrong), "{number} {wrong:?}");
        }
        assert!(number < 5 || found.iter().any(|f| f.2 == 0) && found.iter().any(|f| f.2 > 0));
    }
}

/// High below low, close outside them, or a price out of range.
fn wrong_prices(day: &Day) -> bool {
    let out_of_range = |price: u64| !(1..=HIGHEST).contains(&price);
    let prices = [day.high, day.low, day.close];
    !(day.low..=day.high).contains(&day.close) || prices.into_iter().any(out_of_range)
}

#[test]
fn series_not_in_the_account() {
    let refused: Vec<(u64, bool)> = all_days()
        .iter()
        .filter(|case| case.expect == Expect::Refused(16, 0))
        .map(|case| (case.day.series, wrong_prices(&case.day)))
        .collect();
    for series in [1, 3, 32, 65_535, 1 << 16, 1 << 32, (1 << 32) + 2, u64::MAX] {
        for wrong in [false, true] {
            assert!(refused.contains(&(series, wrong)), "{series} {wrong}");
        }
    }
}

/// Refusal 17 for each of its reasons alone.
#[test]
fn prices_that_no_day_has() {
    let cases = all_days();
    let refused: Vec<&Day> = cases
        .iter()
        .filter(|case| case.expect == Expect::Refused(17, 0))
        .map(|case| &case.day)
        .collect();
    let some = |what: &dyn Fn(&Day) -> bool| refused.iter().any(|day| what(day));
    let in_range =
        |day: &Day| [day.high, day.low, day.close].iter().all(|p| (1..=HIGHEST).contains(p));
    let in_order = |day: &Day| (day.low..=day.high).contains(&day.close);
    assert!(some(&|day| in_range(day) && day.high + 1 == day.low));
    assert!(some(&|day| in_range(day) && day.high >= day.low && day.close == day.high + 1));
    assert!(some(&|day| in_range(day) && day.high >= day.low && day.close + 1 == day.low));
    assert!(some(&|day| in_order(day) && day.high == HIGHEST + 1 && day.close <= HIGHEST));
    assert!(some(&|day| in_order(day) && day.close == HIGHEST + 1));
    assert!(some(&|day| in_order(day) && day.low == 0 && day.close > 0));
    assert!(some(&|day| in_order(day) && day.close == 0 && day.high > 0));
    assert!(some(&|day| in_order(day) && day.low > HIGHEST));
    assert!(some(&|day| in_order(day) && day.high == 0));
    // Their low 32 bits would be a day.
    let low_bits = |number: u64| number % (1 << 32);
    for beyond in [(true, false, false), (false, true, false), (false, false, true)] {
        assert!(some(&|day| {
            let [high, low, close] = [day.high, day.low, day.close].map(low_bits);
            let found = (high != day.high, low != day.low, close != day.close);
            found == beyond && !wrong_prices(&Day { high, low, close, ..*day })
        }));
    }
}

/// By how much the day passes a barrier: 0 where it meets it exactly, -1 where
/// it misses it by a tick.
fn passed(barrier: Barrier, day: &Day) -> Option<(usize, i64)> {
    let (high, low) = (day.high as i64, day.low as i64);
    match barrier {
        Barrier::None => None,
        Barrier::UpAndIn(price) => Some((1, high - price)),
        Barrier::DownAndIn(price) => Some((2, price - low)),
        Barrier::UpAndOut(price) => Some((3, high - price)),
        Barrier::DownAndOut(price) => Some((4, price - low)),
    }
}

/// Rows of every kind whose barrier the day meets exactly or misses by a tick,
/// with their flag already and without; and such of other series.
#[test]
fn barriers_of_every_sort() {
    let mut found = Vec::new();
    for (case, account) in applied() {
        for position in &account.positions {
            let own = position.series as u64 == case.day.series;
            let flagged = position.already_knocked_in || position.already_knocked_out;
            if let Some((kind, by)) = passed(position.barrier, &case.day) {
                found.push((kind, own, flagged, by));
            }
        }
    }
    for kind in 1..=4 {
        for flagged in [true, false] {
            for (own, by) in [(true, -1), (true, 0), (false, 0)] {
                let sort = (kind, own, flagged, by);
                assert!(found.contains(&sort), "{sort:?}");
            }
        }
        assert!(found.contains(&(kind, true, false, 1)), "{kind}");
    }
}

#[test]
fn files_and_days_of_every_shape() {
    let all = applied();
    let some = |what: &dyn Fn(&DayCase, &Account) -> bool| all.iter().any(|(c, a)| what(c, a));
    for series in [0, 31] {
        assert!(some(&|c, a| a.series.len() == 32 && c.day.series == series));
        assert!(some(&|c, a| a.series.len() == 32
            && c.day.series == series
            && a.positions.len() == 256));
        assert!(some(&|c, a| a.series.len() == 32
            && c.day.series == series
            && a.positions.is_empty()));
    }
    assert!(some(&|c, _| c.file.len() == 65_536));
    let covered =
        |c: &DayCase, a: &Account| c.file.len() > distance(a.series.len(), a.positions.len());
    assert!(some(&|c, a| covered(c, a) && a.positions.is_empty()));
    assert!(some(&|c, _| c.day.close == c.day.high && c.day.low < c.day.high));
    assert!(some(&|c, _| c.day.close == c.day.low && c.day.low < c.day.high));
    assert!(some(&|c, _| c.day.low == c.day.high));
    assert!(some(&|c, _| c.day.low == 1 && c.day.high == HIGHEST));
    // No byte is altered, and a row's flag stays.
    let unchanged = |c: &DayCase| matches!(&c.expect, Expect::After(after) if *after == c.file);
    assert!(some(&|c, a| unchanged(c) && a.positions.iter().any(|p| p.already_knocked_out)));
}

#[test]
fn the_two_files_belong_together() {
    let cases = all_days();
    let (input, output) = (stdin_bytes(&cases), stdout_bytes(&cases));
    assert!(input.len() < 400_000, "{}", input.len());
    let (mut rest, mut answers) = (&input[..], &output[..]);
    for case in &cases {
        let (length, after) = rest.split_at(4);
        let length = u32::from_le_bytes(length.try_into().unwrap()) as usize;
        let (day, file) = after[..length].split_at(32);
        let Day { series, high, low, close } = case.day;
        assert_eq!(day, [series, high, low, close].map(u64::to_le_bytes).concat());
        assert!(file == case.file);
        let answer = day_output(file, &case.day);
        assert!(answers.starts_with(&answer));
        rest = &after[length..];
        answers = &answers[answer.len()..];
    }
    assert!(rest.is_empty() && answers.is_empty());
}

/// The files that stand in the repository are those the generator makes.
#[test]
fn the_stored_files_are_up_to_date() {
    let stored = |name: &str| {
        let folder = concat!(env!("CARGO_MANIFEST_DIR"), "/../crates/day_batch/");
        std::fs::read(folder.to_string() + name).expect(name)
    };
    let cases = all_days();
    assert!(stored("stdin") == stdin_bytes(&cases));
    assert!(stored("stdout") == stdout_bytes(&cases));
}
