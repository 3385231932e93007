//! Contracts blocked as collateral (document 02 [9]): a day leaves bytes 5 to 7
//! of every row alone, and where they are wrong the file is refused.

use super::rows::{day, every_kind, one_of_every_kind, touched, BOTH};
use super::{Cases, Expect, SEED};
use crate::draft::{Draft, PositionDraft, CALL, HELD};
use crate::random::Random;
use crate::reader::read_account;
use crate::sample::{sample_account, sample_day, some_blocked, some_knocked_out, Shape};
use crate::vectors::rows::one_series;

const SMALL: Shape = Shape {
    series: (1, 2),
    positions: (2, 6),
    pv: (2, 60),
    quantity: (1, 100_000),
    m: (1, 9),
    fb_above_one: true,
};

pub fn add(cases: &mut Cases) {
    cases.begin("blocked");
    for blocked in [1, 256, 65_536, 66_051, 100_000] {
        let draft = with_blocked(blocked);
        cases.apply(format!("{blocked} blocked, touched"), &draft, BOTH, &touched(true, true));
    }
    let draft = with_blocked(66_051);
    cases.apply("not touched", &draft, day(0, 3399, 2601, 3000), &[]);
    cases.apply(
        "PV of the same bytes",
        &draft,
        day(0, 66_051, 2601, 66_051),
        &touched(true, false),
    );
    cases.refuse("close above the high", draft.bytes(), day(0, 3400, 2600, 3401), 17, 0);
    cases.refuse("series 1 of 1", draft.bytes(), day(1, 3400, 2600, 3000), 16, 0);
    faults(cases);
    by_chance(cases);
}

/// Rows of every kind with 100,000 contracts, so many of the held ones blocked.
fn with_blocked(blocked: u32) -> Draft {
    let row = |row: &PositionDraft| {
        let blocked = if row.side == HELD { blocked } else { 0 };
        PositionDraft { quantity: 100_000, blocked, ..*row }
    };
    one_series(CALL, every_kind(0).iter().map(row).collect())
}

/// Above Q in a held row, and anything in a written one; whatever the day.
fn faults(cases: &mut Cases) {
    for (what, row, blocked, number) in [
        ("above Q", 2, 9, 8),
        ("far above Q", 8, 0xFF_FFFF, 8),
        ("on a written row", 0, 1, 7),
        ("on a written row, byte 7 alone", 9, 1 << 16, 7),
    ] {
        let mut draft = one_of_every_kind();
        draft.positions[row].blocked = blocked;
        for day in [BOTH, day(9, 1, 2, 0)] {
            cases.refuse(what, draft.bytes(), day, number, row);
        }
    }
}

fn by_chance(cases: &mut Cases) {
    let mut random = Random::new(SEED + 2);
    for number in 0..12 {
        let draft = sample_account(&mut random, &SMALL);
        let draft = some_knocked_out(&mut random, draft);
        let file = some_blocked(&mut random, draft).bytes();
        let account = read_account(&file).expect("accepted");
        let day = sample_day(&mut random, &account);
        cases.add(format!("random {number}"), file, day, Expect::Open);
    }
}
