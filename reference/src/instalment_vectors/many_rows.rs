//! Up to 256 rows.

use super::accounts::one_against;
use super::allowances::instalments;
use super::lists::Lent;
use super::{refused, Cases, SEED};
use crate::draft::CALL;
use crate::instalment_cases::Call;
use crate::random::Random;
use crate::sample::{sample_account, Shape};
use crate::vectors::rows::{held, one_series, written};

pub fn add(cases: &mut Cases) {
    cases.begin("many rows");
    // 255 pairs, in instalments that end in, at and beyond the last.
    for allowances in [&[100, 100, 100][..], &[254, 1, 1], &[u64::MAX]] {
        let draft = one_against(255);
        let mut asked = instalments(255, allowances);
        asked.extend(refused(256, 1, 18));
        cases.add(format!("255 pairs by {allowances:?}"), &draft, Lent::marked(512), asked);
    }
    // 128 pairs of one contract, each row in one of them.
    let row = |number: u32| [written(0, 3000 + number, 1), held(0, 3000 + number, 1)];
    let draft = one_series(CALL, (0..128).flat_map(row).collect());
    let mut asked = instalments(128, &[1, 127, 1]);
    asked.extend(refused(129, 1, 18));
    cases.add("128 pairs", &draft, Lent::marked(512), asked);

    let mut random = Random::new(SEED);
    for (series, rows) in [(1, 256), (32, 256), (7, 100), (2, 60)] {
        let shape = Shape {
            series: (series, series),
            positions: (rows, rows),
            pv: (900, 4000),
            quantity: (1, 300),
            m: (1, 50),
            fb_above_one: false,
        };
        let draft = sample_account(&mut random, &shape);
        let asked = vec![
            (Call::Pair { count: 0, allowance: 5 }, Some(Ok(5))),
            (Call::Amount { count: 5 }, None),
            (Call::Pair { count: 5, allowance: u64::MAX }, None),
        ];
        let lent = Lent::marked(Lent::needed(&draft));
        cases.add(format!("{series} series, {rows} rows"), &draft, lent, asked);
    }
}
