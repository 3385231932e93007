//! Which rows and which PV belong to the day's series; refusal 16.

use super::rows::{barred, day, every_kind, one_of_every_kind, touched, KNOCK_INS_AND_OUTS};
use super::Cases;
use crate::day::Day;
use crate::draft::{Draft, PositionDraft, SeriesDraft, CALL, PUT, UP_AND_OUT};
use crate::vectors::rows::{sound, written};

pub fn add(cases: &mut Cases) {
    cases.begin("series");
    rows_between(cases);
    thirty_two_series(cases);
    without_rows(cases);
}

/// Three series of the same prices, their rows in turn.
fn rows_between(cases: &mut Cases) {
    let of_series: Vec<Vec<PositionDraft>> = (0..3).map(every_kind).collect();
    let rows = (0..10).flat_map(|row| of_series.iter().map(move |rows| rows[row])).collect();
    let types = [CALL, PUT, CALL];
    let draft = Draft::new(types.map(SeriesDraft::checked).to_vec(), rows);
    for series in 0..3 {
        let own = |up: bool, down: bool| -> Vec<usize> {
            touched(up, down).iter().map(|row| 3 * row + series).collect()
        };
        let day = |high, low| day(series as u64, high, low, 3003);
        let name = |what: &str| format!("rows of three series in turn, series {series}, {what}");
        cases.apply(name("both barriers"), &draft, day(3400, 2600), &own(true, true));
        cases.apply(name("up"), &draft, day(3400, 2601), &own(true, false));
        cases.apply(name("down"), &draft, day(3399, 2600), &own(false, true));
        cases.apply(name("none"), &draft, day(3399, 2601), &own(false, false));
    }
}

/// Two rows each, kind by kind; every series has another PV.
fn thirty_two_series(cases: &mut Cases) {
    let all: Vec<SeriesDraft> = (0..32)
        .map(|number| SeriesDraft { pv: 2984 + number, ..SeriesDraft::checked(CALL) })
        .collect();
    let row = |number: u16| {
        let kind = KNOCK_INS_AND_OUTS[(number / 32 + number) as usize % 4];
        barred(written(number % 32, 3000, 1), kind, 9)
    };
    let draft = Draft::new(all, (0..64).map(row).collect());
    for series in [0, 1, 15, 16, 30, 31] {
        let rows = [series, series + 32];
        let name = format!("series {series} of 32");
        cases.apply(name, &draft, day(series as u64, 3400, 2600, 2999), &rows);
    }
    let last = Draft { positions: vec![row(31); 3], ..draft };
    cases.apply("rows of series 31 only", &last, day(31, 3400, 2600, 3400), &[0, 1, 2]);
    cases.apply("rows of series 31 only, day of series 0", &last, day(0, 3400, 2600, 3400), &[]);
}

/// The series has no rows, or none with a barrier.
fn without_rows(cases: &mut Cases) {
    let mut draft = one_of_every_kind();
    draft.series.push(SeriesDraft::checked(PUT));
    cases.apply("a series without rows", &draft, day(1, 9_000_000, 1, 77), &[]);
    draft.positions.push(written(1, 3000, 1));
    cases.apply("a series without barriers", &draft, day(1, 9_000_000, 1, 77), &[]);
}

/// Refusal 16, also where the prices are wrong too.
pub fn add_refused(cases: &mut Cases) {
    cases.begin("series not in the account");
    for series in [3, 4, 32, 255, 256, 65_535, 65_536, 65_538, 1 << 32, (1 << 32) + 2] {
        refuse(cases, &sound(), series);
    }
    for series in [1 << 31, 1 << 48, 1 << 63, (1 << 63) + 1, u64::MAX] {
        refuse(cases, &sound(), series);
    }
    let of_32 = Draft::new(
        vec![SeriesDraft::checked(CALL); 32],
        vec![barred(written(31, 3000, 1), UP_AND_OUT, 5)],
    );
    refuse(cases, &of_32, 32);
    refuse(cases, &Draft { positions: vec![], ..of_32 }, 32);
    let no_rows = Draft { positions: vec![], ..one_of_every_kind() };
    refuse(cases, &no_rows, 1);
}

fn refuse(cases: &mut Cases, draft: &Draft, series: u64) {
    let of = draft.series.len();
    let right = Day { series, high: 9_000, low: 100, close: 3000 };
    for (what, day) in [
        ("prices right", right),
        ("high below low", Day { high: 99, ..right }),
        ("close 0", Day { close: 0, ..right }),
    ] {
        cases.refuse(format!("series {series} of {of}, {what}"), draft.bytes(), day, 16, 0);
    }
}
