//! The document's own values.

use super::rows::{checked_series, held, written};
use super::Cases;
use crate::draft::{
    example, Draft, PositionDraft, SeriesDraft, CALL, DOWN_AND_IN, DOWN_AND_OUT, UP_AND_IN,
    UP_AND_OUT,
};

pub fn add(cases: &mut Cases) {
    cases.begin("checked values");
    cases.accept("the example", example());
    unit_margins(cases);
    pairs(cases);

    let mut uneven = SeriesDraft::checked(CALL);
    uneven.pv = 3001;
    uneven.fa = 1_234_567;
    let draft = Draft::new(vec![uneven], vec![written(0, 3100, 10)]);
    cases.accept("PV 3001, fa 1,234,567", draft);
}

fn unit_margins(cases: &mut Cases) {
    let rows = [
        written(0, 3100, 1),
        written(0, 3100, 1).with_limiter(3300),
        written(0, 3100, 1).with_barrier(UP_AND_IN, 3700, 40),
        written(0, 3100, 1).with_barrier(UP_AND_IN, 3600, 40),
        written(0, 3100, 1).with_barrier(DOWN_AND_IN, 2300, 0),
        written(0, 2500, 1).with_barrier(DOWN_AND_IN, 2400, 0),
        written(0, 3100, 1).with_barrier(DOWN_AND_OUT, 2300, 600),
        written(0, 3100, 1).with_barrier(DOWN_AND_OUT, 2400, 600),
        written(0, 3100, 1).with_barrier(UP_AND_OUT, 3601, 0),
        written(0, 3100, 1).with_barrier(UP_AND_OUT, 3500, 40),
        written(1, 3200, 1).with_barrier(UP_AND_IN, 3600, 0),
        written(1, 2900, 1).with_barrier(DOWN_AND_OUT, 2500, 0),
    ];
    for (number, row) in rows.iter().enumerate() {
        cases.accept(format!("one row {number}"), Draft::new(checked_series(), vec![*row]));
    }
    cases.accept("all rows", Draft::new(checked_series(), rows.to_vec()));
}

fn pairs(cases: &mut Cases) {
    let out = |row: PositionDraft, price, rebate| row.with_barrier(DOWN_AND_OUT, price, rebate);
    let out_at_2400 = out(written(0, 3100, 1), 2400, 60);
    for (name, w, h) in [
        ("held 3250", written(0, 3100, 1), held(0, 3250, 1)),
        ("held 3600", written(0, 3100, 1), held(0, 3600, 1)),
        ("both out at 2400", out_at_2400, out(held(0, 3000, 1), 2400, 25)),
        ("held out at 2500", out_at_2400, out(held(0, 3000, 1), 2500, 25)),
    ] {
        cases.accept(name, Draft::new(checked_series(), vec![w, h]));
        let other_way = Draft::new(checked_series(), vec![h, w]);
        cases.accept(format!("{name}, held row first"), other_way);
    }
}
