//! Ties in strike difference.

use super::rows::{checked_series, held, written};
use super::{Cases, SEED};
use crate::draft::{Draft, PositionDraft, DOWN_AND_OUT, HELD, WRITTEN};
use crate::random::Random;

pub fn add(cases: &mut Cases) {
    cases.begin("ties");
    for (name, rows) in two_or_three_rows().into_iter().chain(more_rows()) {
        cases.accept(name, Draft::new(checked_series(), rows));
    }
    let mut random = Random::new(SEED + 1);
    for number in 0..30 {
        let count = random.between(4, 14);
        let rows = (0..count).map(|_| random_row(&mut random)).collect();
        cases.accept(format!("random {number}"), Draft::new(checked_series(), rows));
    }
}

fn two_or_three_rows() -> [(&'static str, Vec<PositionDraft>); 4] {
    [
        (
            "held above and below, above first",
            vec![written(0, 3100, 5), held(0, 3200, 3), held(0, 3000, 3)],
        ),
        (
            "held above and below, below first",
            vec![written(0, 3100, 5), held(0, 3000, 3), held(0, 3200, 3)],
        ),
        (
            "two written, one held between",
            vec![written(0, 3200, 3), written(0, 3000, 3), held(0, 3100, 4)],
        ),
        (
            "two written, one held between, held first",
            vec![held(0, 3100, 4), written(0, 3000, 3), written(0, 3200, 3)],
        ),
    ]
}

fn more_rows() -> [(&'static str, Vec<PositionDraft>); 5] {
    [
        (
            "written row decides before held row",
            vec![held(0, 3050, 1), written(0, 3200, 1), held(0, 3250, 1), written(0, 3100, 1)],
        ),
        (
            "two series with the same difference",
            vec![written(1, 3000, 2), written(0, 3000, 2), held(0, 3010, 2), held(1, 2990, 2)],
        ),
        (
            "the later series has the lesser difference",
            vec![written(0, 3000, 2), written(1, 3000, 2), held(0, 3010, 2), held(1, 3009, 2)],
        ),
        (
            "the nearest may not pair",
            vec![
                written(0, 3100, 5),
                held(0, 3100, 2).style(false, false),
                held(0, 3100, 2).with_limiter(3500),
                held(0, 3101, 2).with_barrier(DOWN_AND_OUT, 2500, 0),
                held(0, 3105, 2),
                held(0, 3095, 2),
            ],
        ),
        ("same options, many rows", [held(0, 3100, 2), written(0, 3100, 3)].repeat(3)),
    ]
}

fn random_row(random: &mut Random) -> PositionDraft {
    let series = random.between(0, 1) as u16;
    let strike = random.pick(&[2800, 2900, 3000, 3100, 3200]);
    let quantity = random.between(1, 9) as u32;
    let side = random.pick(&[HELD, WRITTEN]);
    PositionDraft::plain(series, side, strike, quantity)
}
