//! Prices at the ends of their range; refusal 17.

use super::rows::{day, one_of_every_kind, touched, BOTH, DOWN, UP};
use super::Cases;
use crate::day::Day;
use crate::draft::{
    Draft, PositionDraft, SeriesDraft, CALL, DOWN_AND_IN, DOWN_AND_OUT, UP_AND_IN, UP_AND_OUT,
};
use crate::vectors::rows::{one_series, written};

const HIGHEST: u64 = 10_000_000;

pub fn add_ends(cases: &mut Cases) {
    cases.begin("ends of the range");
    let draft = one_of_every_kind();
    for (high, low, close, up, down) in [
        (HIGHEST, 1, 3000, true, true),
        (HIGHEST, 1, 1, true, true),
        (HIGHEST, 1, HIGHEST, true, true),
        (HIGHEST, HIGHEST, HIGHEST, true, false),
        (1, 1, 1, false, true),
        (HIGHEST, 3000, 3000, true, false),
        (3000, 1, 3000, false, true),
    ] {
        let name = format!("high {high}, low {low}, close {close}");
        cases.apply(name, &draft, day(0, high, low, close), &touched(up, down));
    }
    barriers_at_their_ends(cases);
    prices_at_their_ends(cases);
}

/// Barriers at 1 and at 10,000,000.
fn barriers_at_their_ends(cases: &mut Cases) {
    let of = |kind: u8, price: u32| written(0, 3000, 1).with_barrier(kind, price, 3);
    let rows: Vec<PositionDraft> = vec![
        of(UP_AND_IN, 10_000_000),
        of(DOWN_AND_IN, 1),
        of(UP_AND_OUT, 10_000_000),
        of(DOWN_AND_OUT, 1),
    ];
    let draft = one_series(CALL, rows);
    for (high, low, rows) in [
        (HIGHEST, 1, vec![0, 1, 2, 3]),
        (HIGHEST, 2, vec![0, 2]),
        (HIGHEST - 1, 1, vec![1, 3]),
        (HIGHEST - 1, 2, vec![]),
    ] {
        let name = format!("barriers at their ends, high {high}, low {low}");
        cases.apply(name, &draft, day(0, high, low, 3000), &rows);
    }
}

/// PV at 1 and at 10,000,000, the barriers one tick beside it.
fn prices_at_their_ends(cases: &mut Cases) {
    for (pv, kinds, beside) in
        [(1, [UP_AND_IN, UP_AND_OUT], 2), (10_000_000, [DOWN_AND_IN, DOWN_AND_OUT], 9_999_999)]
    {
        let series = SeriesDraft { pv, ..SeriesDraft::checked(CALL) };
        let rows = kinds.map(|kind| written(0, 3000, 1).with_barrier(kind, beside, 3)).to_vec();
        let draft = Draft::new(vec![series], rows);
        let stays = u64::from(pv);
        let name = |what: &str| format!("PV {pv}, {what}");
        cases.apply(name("the price stays"), &draft, day(0, stays, stays, stays), &[]);
        let (high, low) = (stays.max(beside.into()), stays.min(beside.into()));
        cases.apply(name("one tick"), &draft, day(0, high, low, stays), &[0, 1]);
        cases.apply(name("all prices"), &draft, day(0, HIGHEST, 1, 3000), &[0, 1]);
    }
}

/// Each of the three, taken from a day that is right.
type Spoil = fn(&mut Day, u64);

const EACH: [(&str, Spoil); 4] = [
    ("high", |day, price| day.high = price),
    ("low", |day, price| day.low = price),
    ("close", |day, price| day.close = price),
    ("all three", |day, price| (day.high, day.low, day.close) = (price, price, price)),
];

/// Every one of them would set flags if it were applied.
pub fn add_refused(cases: &mut Cases) {
    cases.begin("prices");
    for (what, high, low, close) in [
        ("high one below low", 2999, 3000, 3000),
        ("high one below low, close at the high", 2999, 3000, 2999),
        ("high and low exchanged", 2600, 3400, 3000),
        ("high and low exchanged, close at the low", 2600, 3400, 3400),
        ("close one above the high", 3400, 2600, 3401),
        ("close one below the low", 3400, 2600, 2599),
        ("close one above a day of one price", 3400, 3400, 3401),
        ("close one below a day of one price", 2600, 2600, 2599),
        ("close highest", 3400, 2600, HIGHEST),
        ("close least", 3400, 2600, 1),
        ("high 10,000,001, close there", HIGHEST + 1, 2600, HIGHEST + 1),
        ("low 0, close there", 3400, 0, 0),
        ("low 0, close 1", 3400, 0, 1),
        ("low 0 and high 10,000,001", HIGHEST + 1, 0, 3000),
    ] {
        refuse(cases, what, day(0, high, low, close));
    }
    for price in [0, HIGHEST + 1, 1 << 24, u64::from(u32::MAX), 1 << 32, 1 << 63, u64::MAX] {
        for (which, spoil) in EACH {
            let mut day = BOTH;
            spoil(&mut day, price);
            refuse(cases, format!("{which} {price}"), day);
        }
    }
    low_bits_right(cases);
}

/// Numbers whose low bits alone would be accepted.
fn low_bits_right(cases: &mut Cases) {
    for more in [1 << 32, 1 << 33, 1 << 63] {
        let (high, low, close) = (UP as u64, DOWN as u64, BOTH.close);
        for (which, day) in [
            ("high", day(0, high + more, low, close)),
            ("low", day(0, high, low + more, close)),
            ("close", day(0, high, low, close + more)),
            ("all three", day(0, high + more, low + more, close + more)),
        ] {
            refuse(cases, format!("{which} and {more}"), day);
        }
    }
}

fn refuse(cases: &mut Cases, name: impl Into<String>, day: Day) {
    cases.refuse(name, one_of_every_kind().bytes(), day, 17, 0);
}
