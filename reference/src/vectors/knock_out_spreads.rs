//! Spreads with knock-out barriers.

use super::rows::{held, is_up, one_series, written};
use super::Cases;
use crate::draft::{CALL, DOWN_AND_OUT, PUT, UP_AND_OUT};

/// Written and held rebate, in turn: small, 0, and above the payoffs.
const REBATES: [(u32, u32); 6] = [(60, 25), (25, 60), (0, 0), (590, 5), (9, 9), (3000, 10)];

struct Spread {
    kind: u8,
    type_byte: u8,
    held_strike: u32,
    price: u32,
    held_price: u32,
}

pub fn add(cases: &mut Cases) {
    cases.begin("knock-out spreads");
    for (turn, spread) in spreads().iter().enumerate() {
        let Spread { kind, type_byte, held_strike, price, held_price } = *spread;
        let (rebate_w, rebate_h) = REBATES[turn % 6];
        let rows = vec![
            written(0, 3000, 9).with_barrier(kind, price, rebate_w),
            held(0, held_strike, 5).with_barrier(kind, held_price, rebate_h),
            held(0, 3300, 1).with_barrier(kind, held_price, rebate_w),
            held(0, 2700, 1).with_barrier(kind, price, rebate_h),
        ];
        let name = format!(
            "kind {kind} type {type_byte} held strike {held_strike} \
             barriers {price} and {held_price} rebates {rebate_w} and {rebate_h}"
        );
        cases.accept(name, one_series(type_byte, rows));
    }
}

/// Every order of strikes and of barriers, and every reach.
fn spreads() -> Vec<Spread> {
    let mut all = Vec::new();
    for kind in [UP_AND_OUT, DOWN_AND_OUT] {
        // The second of the three is met exactly.
        let prices = if is_up(kind) { [3540, 3600, 3660] } else { [2340, 2400, 2460] };
        for type_byte in [CALL, PUT] {
            for held_strike in [2990, 3000, 3010] {
                for higher in [-7, 0, 7] {
                    all.extend(prices.map(|price: u32| {
                        let held_price = price.checked_add_signed(higher).expect("a price");
                        Spread { kind, type_byte, held_strike, price, held_price }
                    }));
                }
            }
        }
    }
    all
}

/// Spreads that gain by the held rebate alone: the held strike lies beyond the
/// barrier, and the written barrier stands in place of H (calls) or L (puts).
pub fn add_by_rebate(cases: &mut Cases) {
    cases.begin("rebate spreads");
    for (type_byte, kind, strike, barrier, held_strikes) in [
        (CALL, UP_AND_OUT, 3100, 3500, [3499, 3500, 3501, 3550, 3600, 9000]),
        (PUT, DOWN_AND_OUT, 2900, 2500, [2501, 2500, 2499, 2450, 2400, 1]),
        // The other barrier leaves H and L as they are.
        (CALL, DOWN_AND_OUT, 3100, 2500, [3499, 3500, 3501, 3550, 3600, 9000]),
        (PUT, UP_AND_OUT, 2900, 3500, [2501, 2500, 2499, 2450, 2400, 1]),
    ] {
        for held_strike in held_strikes {
            for rebate_h in [0, 100, 400] {
                let rows = vec![
                    written(0, strike, 9).with_barrier(kind, barrier, 700),
                    held(0, held_strike, 5).with_barrier(kind, barrier, rebate_h),
                ];
                let name = format!(
                    "type {type_byte} kind {kind} held strike {held_strike} rebate {rebate_h}"
                );
                cases.accept(name, one_series(type_byte, rows));
            }
        }
    }
}
