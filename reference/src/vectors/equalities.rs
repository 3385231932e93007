//! H = IU, L = ID, H = OU, L = OD; a tick beside; a fine unit beside.

use super::rows::{is_up, one_series, series_with_remainder, written};
use super::Cases;
use crate::draft::{
    Draft, PositionDraft, CALL, DOWN_AND_IN, DOWN_AND_OUT, HELD, PUT, UP_AND_IN, UP_AND_OUT,
};

pub fn add(cases: &mut Cases) {
    cases.begin("equalities");
    for kind in [UP_AND_IN, DOWN_AND_IN, UP_AND_OUT, DOWN_AND_OUT] {
        for type_byte in [CALL, PUT] {
            ticks_beside(cases, kind, type_byte);
            fine_unit_beside(cases, kind, type_byte);
        }
    }
    payoffs_about_minimum(cases);
}

fn ticks_beside(cases: &mut Cases, kind: u8, type_byte: u8) {
    for has_limiter in [false, true] {
        for beside in [-1i64, 0, 1] {
            let edge = if is_up(kind) { 3600 } else { 2400 };
            let limiter = if type_byte == CALL { 333 } else { -333 };
            let limiter = has_limiter.then_some(limiter);
            let rows = rows(kind, (edge + beside) as u32, 3000, limiter);
            let name = format!(
                "kind {kind} type {type_byte} limiter {has_limiter}, {beside} ticks beside"
            );
            cases.accept(name, one_series(type_byte, rows));
        }
    }
}

/// H or L one fine unit below and above the barrier.
fn fine_unit_beside(cases: &mut Cases, kind: u8, type_byte: u8) {
    for remainder in [999_999, 1] {
        let (series, edge) = series_with_remainder(type_byte, is_up(kind), remainder);
        let price = (edge + 1) / 1_000_000;
        let rows = rows(kind, price as u32, series.pv, None);
        let name = format!("kind {kind} type {type_byte}, edge {edge} at barrier {price}");
        cases.accept(name, Draft::new(vec![series], rows));
    }
}

/// Written rows with this barrier, and held ones alike but for strike or
/// rebate. The limiter is given as far as it stands from the strike.
fn rows(kind: u8, price: u32, pv: u32, limiter: Option<i32>) -> Vec<PositionDraft> {
    let strikes_and_rebates = [(pv + 100, 40), (pv + 100, 600), (pv - 500, 40), (pv - 500, 3000)];
    let written = strikes_and_rebates.map(|(strike, rebate)| {
        let row = written(0, strike, 10).with_barrier(kind, price, rebate);
        match limiter {
            Some(far) => row.with_limiter(strike.checked_add_signed(far).expect("a price")),
            None => row,
        }
    });
    let [first, _, third, _] = written;
    let other_strike =
        PositionDraft { side: HELD, strike: first.strike + 20, quantity: 4, ..first };
    let other_rebate = PositionDraft { side: HELD, rebate: 15, quantity: 25, ..third };
    [&written[..], &[other_strike, other_rebate]].concat()
}

/// Payoffs that just meet the minimum margin, and zero.
fn payoffs_about_minimum(cases: &mut Cases) {
    for type_byte in [CALL, PUT] {
        let strikes = if type_byte == CALL {
            [3449, 3450, 3451, 3600, 3601]
        } else {
            [2549, 2550, 2551, 2400, 2399]
        };
        let rows = strikes.map(|strike| written(0, strike, 1)).to_vec();
        cases.accept(format!("payoff about MM, type {type_byte}"), one_series(type_byte, rows));
    }
}
