//! Every barrier kind, call and put, limiter or not, flags, barrier within and
//! out of reach.

use super::rows::{checked_series, held, is_up, one_series, written, KINDS};
use super::Cases;
use crate::draft::{
    Draft, PositionDraft, SeriesDraft, CALL, DOWN_AND_IN, NO_BARRIER, PUT, UP_AND_IN,
};

#[derive(Clone, Copy)]
struct Variant {
    kind: u8,
    type_byte: u8,
    has_limiter: bool,
    knocked_in: bool,
    /// European, opened before the annex.
    style: (bool, bool),
    within_reach: bool,
}

const STYLES: [(bool, bool); 4] = [(false, false), (true, false), (false, true), (true, true)];

pub fn add(cases: &mut Cases) {
    cases.begin("kinds and flags");
    for variant in variants() {
        let rows = vec![
            variant.row(written(0, 3100, 10), 220),
            variant.row(written(0, 2900, 7), 35),
            // The same option as row 0, then others of its kind.
            variant.row(held(0, 3100, 4), 220).with_premium(3),
            variant.row(held(0, 3000, 3), 20),
            variant.row(held(0, 3150, 2), 250).with_premium(11),
            held(0, 2950, 6),
        ];
        cases.accept(variant.name(), one_series(variant.type_byte, rows));
    }
    flag_1_frees_the_side(cases);
    limiters_at_their_ends(cases);
}

fn variants() -> Vec<Variant> {
    let mut all = Vec::new();
    for kind in KINDS {
        for type_byte in [CALL, PUT] {
            for has_limiter in [false, true] {
                for knocked_in in [false, true] {
                    for style in STYLES {
                        all.extend([true, false].map(|within_reach| Variant {
                            kind,
                            type_byte,
                            has_limiter,
                            knocked_in,
                            style,
                            within_reach,
                        }));
                    }
                }
            }
        }
    }
    all.retain(|v| !v.knocked_in || v.kind == UP_AND_IN || v.kind == DOWN_AND_IN);
    // Without a barrier nothing is within reach or out of it.
    all.retain(|v| v.kind != NO_BARRIER || v.within_reach);
    all
}

impl Variant {
    fn row(&self, plain: PositionDraft, rebate: u32) -> PositionDraft {
        let mut row = plain.style(self.style.0, self.style.1);
        if self.has_limiter {
            let up = self.type_byte == CALL;
            row = row.with_limiter(if up { row.strike + 250 } else { row.strike - 250 });
        }
        if self.kind != NO_BARRIER {
            let price = match (is_up(self.kind), self.within_reach) {
                (true, true) => 3450,
                (true, false) => 3650,
                (false, true) => 2550,
                (false, false) => 2350,
            };
            row = row.with_barrier(self.kind, price, rebate);
        }
        if self.knocked_in {
            row = row.knocked_in();
        }
        row
    }

    fn name(&self) -> String {
        let Variant { kind, type_byte, has_limiter, knocked_in, style, within_reach } = self;
        format!(
            "kind {kind} type {type_byte} limiter {has_limiter} knocked in {knocked_in} \
             European {} before {} within reach {within_reach}",
            style.0, style.1
        )
    }
}

/// Flag 1 frees the side of PV, also where no price is on the right side.
fn flag_1_frees_the_side(cases: &mut Cases) {
    for type_byte in [CALL, PUT] {
        for (pv, kind, price) in [
            (3000, UP_AND_IN, 3000),
            (3000, UP_AND_IN, 1),
            (3000, DOWN_AND_IN, 3000),
            (3000, DOWN_AND_IN, 10_000_000),
            (10_000_000, UP_AND_IN, 10_000_000),
            (1, DOWN_AND_IN, 1),
        ] {
            let series = SeriesDraft { pv, ..SeriesDraft::checked(type_byte) };
            let rows = vec![
                written(0, pv, 2).with_barrier(kind, price, 500).knocked_in(),
                held(0, pv, 1),
                held(0, pv, 1).with_barrier(kind, price, 10_000_000).knocked_in(),
            ];
            let name = format!("flag 1: PV {pv} type {type_byte} kind {kind} price {price}");
            cases.accept(name, Draft::new(vec![series], rows));
        }
    }
}

fn limiters_at_their_ends(cases: &mut Cases) {
    let rows = vec![
        written(0, 3100, 1).with_limiter(3101),
        written(0, 9_999_999, 1).with_limiter(10_000_000),
        written(0, 3100, 1).with_limiter(10_000_000),
        written(1, 3100, 1).with_limiter(3099),
        written(1, 1, 1).with_limiter(0),
        written(1, 3100, 2).with_limiter(0),
        // Without a limiter, and with one at 0: not the same option.
        held(1, 3100, 1),
        held(1, 3100, 1).with_limiter(0),
    ];
    cases.accept("limiters at their ends", Draft::new(checked_series(), rows));
}
