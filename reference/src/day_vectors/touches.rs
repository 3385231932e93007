//! Barriers met exactly, missed by a tick and passed.

use super::rows::{
    barred, day, every_kind, marked, one_of_every_kind, touched, BOTH, DOWN, KNOCK_INS_AND_OUTS, UP,
};
use super::Cases;
use crate::draft::{CALL, PUT};
use crate::vectors::rows::{held, is_up, one_series, written};

pub fn add(cases: &mut Cases) {
    cases.begin("touches");
    about_both_barriers(cases);
    one_row(cases);
    closes(cases);
    far_days(cases);
    again(cases);
}

/// High and low at the barriers and one tick to either side of them.
fn about_both_barriers(cases: &mut Cases) {
    let (up, down) = (UP as u64, DOWN as u64);
    for type_byte in [CALL, PUT] {
        for high in [up - 1, up, up + 1] {
            for low in [down + 1, down, down - 1] {
                let draft = one_series(type_byte, every_kind(0));
                let rows = touched(high >= up, low <= down);
                let name = format!("type {type_byte}, high {high}, low {low}");
                cases.apply(name, &draft, day(0, high, low, 2987), &rows);
            }
        }
    }
}

/// One barrier alone, met exactly and missed by a tick, with the close there.
fn one_row(cases: &mut Cases) {
    for kind in KNOCK_INS_AND_OUTS {
        for row in [written(0, 3000, 2), held(0, 3000, 2).with_premium(3)] {
            let draft = one_series(CALL, vec![barred(row, kind, 60)]);
            let (at, missed) = if is_up(kind) {
                (day(0, 3400, 3000, 3400), day(0, 3399, 3000, 3399))
            } else {
                (day(0, 3000, 2600, 2600), day(0, 3000, 2601, 2601))
            };
            let side = row.side;
            cases.apply(format!("kind {kind} side {side}, met"), &draft, at, &[0]);
            cases.apply(format!("kind {kind} side {side}, missed"), &draft, missed, &[]);
        }
    }
}

/// The close at the high, at the low and between, and a day of one price.
fn closes(cases: &mut Cases) {
    let draft = one_of_every_kind();
    for (name, day, up, down) in [
        ("close at the high", day(0, 3400, 2700, 3400), true, false),
        ("close at the low", day(0, 3300, 2600, 2600), false, true),
        ("close one tick below the high", day(0, 3401, 2700, 3400), true, false),
        ("close one tick above the low", day(0, 3300, 2599, 2600), false, true),
        ("close at PV", day(0, 3400, 2600, 3000), true, true),
        ("one price, at the up barrier", day(0, 3400, 3400, 3400), true, false),
        ("one price, at the down barrier", day(0, 2600, 2600, 2600), false, true),
        ("one price, PV", day(0, 3000, 3000, 3000), false, false),
        ("one price, below the up barrier", day(0, 3399, 3399, 3399), false, false),
        ("one price, above the down barrier", day(0, 2601, 2601, 2601), false, false),
    ] {
        cases.apply(name, &draft, day, &touched(up, down));
    }
}

/// Days that do not come near PV: the barrier lies between.
fn far_days(cases: &mut Cases) {
    let draft = one_of_every_kind();
    let above = day(0, 9_000, 8_000, 8_500);
    let below = day(0, 200, 100, 150);
    cases.apply("the whole day above the up barrier", &draft, above, &touched(true, false));
    cases.apply("the whole day below the down barrier", &draft, below, &touched(false, true));
}

/// The same day applied again, and other days after it.
fn again(cases: &mut Cases) {
    let mut draft = one_of_every_kind();
    for row in touched(true, true) {
        draft.positions[row] = marked(draft.positions[row]);
    }
    draft.series[0].pv = BOTH.close as u32;
    cases.apply("the same day again", &draft, BOTH, &[]);
    cases.apply("a day without touch after it", &draft, day(0, 3010, 2990, 3000), &[]);
    cases.apply("a day beyond all barriers after it", &draft, day(0, 9_999, 1, 5_000), &[]);
    let mut close = one_of_every_kind();
    close.series[0].pv = 3111;
    cases.apply("PV is the close already", &close, BOTH, &touched(true, true));
}
