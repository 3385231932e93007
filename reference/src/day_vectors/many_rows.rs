//! 256 rows.

use super::rows::{barred, day, KNOCK_INS_AND_OUTS};
use super::Cases;
use crate::draft::{Draft, PositionDraft, SeriesDraft, CALL};
use crate::vectors::rows::{is_up, one_series, written};

pub fn add(cases: &mut Cases) {
    cases.begin("many rows");
    let row = |number: usize, series: u16| {
        barred(written(series, 3000, 1), KNOCK_INS_AND_OUTS[number % 4], number as u32)
    };
    let rows: Vec<PositionDraft> = (0..256).map(|number| row(number, 0)).collect();
    let up: Vec<usize> = (0..256).filter(|number| is_up(rows[*number].kind)).collect();
    let all: Vec<usize> = (0..256).collect();
    let draft = one_series(CALL, rows);
    cases.apply("256 rows, all touched", &draft, day(0, 3400, 2600, 3000), &all);
    cases.apply("256 rows, up", &draft, day(0, 3400, 2601, 3400), &up);
    cases.apply("256 rows, none", &draft, day(0, 3399, 2601, 3001), &[]);
    cases.refuse("256 rows, refused", draft.bytes(), day(0, 3400, 2600, 2599), 17, 0);

    // 32 series: the rows of one of them stand 32 apart.
    let rows = (0..256).map(|number| row(number / 32, (number % 32) as u16)).collect();
    let draft = Draft::new(vec![SeriesDraft::checked(CALL); 32], rows);
    for series in [0, 31] {
        let own: Vec<usize> = (0..8).map(|turn| 32 * turn + series).collect();
        let name = format!("256 rows of 32 series, series {series}");
        cases.apply(name, &draft, day(series as u64, 3400, 2600, 2600), &own);
    }
}
