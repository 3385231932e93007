//! Which pairs are made beside blocked contracts (document 02 [9]), and what is
//! left of a row that is spent for pairing.

use super::rows::{held, written};
use super::Cases;
use crate::draft::PositionDraft;

/// Accounts of one series by their names.
type Named<const N: usize> = [(&'static str, Vec<PositionDraft>); N];

pub fn add(cases: &mut Cases) {
    cases.begin("blocked");
    let choices = wholly_and_nearly().into_iter().chain(limiters_and_order());
    for (name, rows) in choices.chain(ties()).chain(spent_for_pairing()) {
        cases.accept_both(name, rows);
    }
}

/// Of the held rows all contracts are blocked, or all but one of the nearest.
fn wholly_and_nearly() -> Named<2> {
    [
        (
            "every held row wholly blocked",
            vec![
                written(0, 3000, 5),
                held(0, 3000, 5).with_blocked(5),
                held(0, 2900, 1).with_blocked(1).with_premium(7),
            ],
        ),
        (
            "the nearest with one contract to use",
            vec![
                written(0, 3000, 5),
                held(0, 3000, 100_000).with_blocked(99_999),
                held(0, 3100, 3).with_blocked(1),
                held(0, 2900, 9).with_blocked(1),
            ],
        ),
    ]
}

fn limiters_and_order() -> Named<2> {
    [
        (
            "limiters, the one that may pair blocked",
            vec![
                written(0, 3000, 5).with_limiter(3300),
                held(0, 3000, 5).with_limiter(3299),
                held(0, 3010, 5).with_limiter(3300).with_blocked(5),
                held(0, 3020, 5).with_limiter(3301).with_blocked(3),
                held(0, 3040, 5).with_blocked(4),
            ],
        ),
        (
            "blocked rows before, between and after written ones",
            vec![
                held(0, 3020, 4).with_blocked(1),
                written(0, 3000, 3),
                held(0, 3005, 4).with_blocked(2),
                written(0, 3010, 3),
                held(0, 2995, 4).with_blocked(3),
            ],
        ),
    ]
}

fn ties() -> Named<5> {
    [
        (
            "a tie, the first held row wholly blocked",
            vec![written(0, 3100, 5), held(0, 3200, 3).with_blocked(3), held(0, 3000, 3)],
        ),
        (
            "a tie, the first held row blocked in part",
            vec![written(0, 3100, 5), held(0, 3200, 3).with_blocked(2), held(0, 3000, 3)],
        ),
        (
            "a tie, the second held row blocked in part",
            vec![written(0, 3100, 5), held(0, 3200, 3), held(0, 3000, 3).with_blocked(2)],
        ),
        (
            "a tie of written rows, fewer to use than either has",
            vec![written(0, 3200, 3), written(0, 3000, 3), held(0, 3100, 4).with_blocked(2)],
        ),
        (
            "the same options, blocked by turns",
            vec![
                held(0, 3100, 2).with_blocked(2),
                written(0, 3100, 3),
                held(0, 3100, 2).with_blocked(1),
                written(0, 3100, 3),
                held(0, 3100, 2),
                written(0, 3100, 3),
            ],
        ),
    ]
}

/// A held row used in part, then spent for pairing while blocked ones are left.
fn spent_for_pairing() -> Named<4> {
    [
        (
            "used by two written rows, then spent",
            vec![
                written(0, 3000, 3),
                written(0, 3010, 5),
                written(0, 3030, 2),
                held(0, 3000, 10).with_blocked(4),
                held(0, 3100, 9),
            ],
        ),
        (
            "spent by the first, the second takes the next row",
            vec![
                written(0, 3000, 3),
                written(0, 3005, 3),
                held(0, 3000, 6).with_blocked(3),
                held(0, 3020, 6).with_blocked(3),
            ],
        ),
        (
            "spent exactly with the written row",
            vec![written(0, 3000, 3), held(0, 3000, 7).with_blocked(4), held(0, 3001, 1)],
        ),
        (
            "not spent: contracts to use and blocked ones in one left line",
            vec![written(0, 3000, 3), held(0, 3000, 9).with_blocked(4), held(0, 3001, 2)],
        ),
    ]
}
