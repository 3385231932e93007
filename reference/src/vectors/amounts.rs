//! Rounding, once a line and upwards; premiums.

use super::rows::{checked_series, held, written};
use super::Cases;
use crate::draft::{
    Draft, PositionDraft, SeriesDraft, CALL, DOWN_AND_IN, DOWN_AND_OUT, PUT, UP_AND_IN, UP_AND_OUT,
};

pub fn add_rounding(cases: &mut Cases) {
    cases.begin("rounding");
    for type_byte in [CALL, PUT] {
        for quantity in [1, 2, 3, 10, 99_999] {
            let name = format!("type {type_byte}, {quantity} contracts");
            cases.accept(name, Draft::new(vec![uneven(type_byte)], uneven_rows(quantity)));
        }
    }
    // One fine unit, and just less and more than a centavo.
    for (pv, f3, m, quantity) in [
        (1, 1, 1, 1),
        (1, 999_999, 1, 1),
        (1_000_001, 1, 1, 1),
        (1, 1, 1_000, 1_000),
        (7, 142_857, 1, 1),
        (10_000_000, 1, 1, 1),
    ] {
        let series =
            SeriesDraft { pv, fa: 1_000_000, fb: 1_000_000, f3, m, ..SeriesDraft::checked(CALL) };
        let draft = Draft::new(vec![series], vec![written(0, pv, quantity)]);
        cases.accept(format!("PV {pv} f3 {f3} M {m} Q {quantity}"), draft);
    }
}

/// A series whose margins are hardly ever whole ticks.
fn uneven(type_byte: u8) -> SeriesDraft {
    SeriesDraft {
        pv: 3001,
        fa: 1_234_567,
        fb: 765_433,
        f3: 33_333,
        m: 7,
        ..SeriesDraft::checked(type_byte)
    }
}

fn uneven_rows(quantity: u32) -> Vec<PositionDraft> {
    vec![
        written(0, 3100, quantity),
        written(0, 2500, quantity).with_barrier(DOWN_AND_IN, 2999, 0),
        written(0, 3500, quantity).with_barrier(UP_AND_IN, 3002, 0),
        held(0, 3700, quantity.div_ceil(2)),
        written(0, 3100, quantity).with_barrier(UP_AND_OUT, 4000, 0),
        held(0, 9000, quantity.div_ceil(3)).with_barrier(UP_AND_OUT, 4000, 0),
        held(0, 1, quantity.div_ceil(3)).with_barrier(UP_AND_OUT, 4000, 0),
    ]
}

pub fn add_premiums(cases: &mut Cases) {
    cases.begin("premiums");
    let with_13 = held(0, 3100, 7).with_premium(13);
    let accounts = [
        ("one held row", vec![with_13]),
        ("one held row without premium", vec![held(0, 3100, 7)]),
        ("held rows only", vec![with_13, held(1, 1, 1).with_premium(1)]),
        ("paired whole", vec![written(0, 3100, 7), with_13]),
        ("paired in part", vec![written(0, 3100, 7), held(0, 3100, 9).with_premium(13)]),
        (
            "one held row over three written ones",
            vec![
                written(0, 3100, 2),
                written(0, 3110, 2),
                written(0, 3090, 2),
                held(0, 3100, 9).with_premium(10_000_000),
            ],
        ),
        ("not paired, American", vec![written(0, 3100, 7), with_13.style(false, false)]),
        ("on barrier rows, knocked in and not", premiums_of_barrier_rows()),
    ];
    for (name, rows) in accounts {
        cases.accept(name, Draft::new(checked_series(), rows));
    }
}

fn premiums_of_barrier_rows() -> Vec<PositionDraft> {
    vec![
        held(0, 3100, 7).with_barrier(UP_AND_IN, 3400, 8).with_premium(13),
        held(1, 3100, 7).with_barrier(DOWN_AND_IN, 2400, 8).knocked_in().with_premium(17),
        held(1, 3100, 7).with_barrier(DOWN_AND_OUT, 2400, 8).with_limiter(3000).with_premium(1),
    ]
}
