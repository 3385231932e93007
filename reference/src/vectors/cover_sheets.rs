//! Cover sheets.

use super::rows::written;
use super::Cases;
use crate::draft::{example, Draft, PositionDraft, SeriesDraft, CALL, PUT};

pub fn add(cases: &mut Cases) {
    cases.begin("cover sheets");
    for (name, cover) in covers() {
        cases.accept(name, Draft { cover, ..example() });
    }
    // The same cover sheets before a file that is refused.
    for cover in [example().bytes(), example().trailer()] {
        let mut draft = Draft { cover, ..example() };
        draft.positions[2].quantity = 0;
        cases.refuse("before a wrong row", draft.bytes(), 8, 2);
    }
    // The distance takes the cover sheet's last row for a series row.
    let mut draft = Draft { cover: SeriesDraft::checked(PUT).bytes(), ..example() };
    draft.stated_distance = Some(12 + 24 * 2 + 32 * 3);
    cases.refuse("distance into the cover", draft.bytes(), 4, 0);
    draft.stated_s = Some(2);
    cases.accept("two series counted", draft);
}

fn covers() -> Vec<(&'static str, Vec<u8>)> {
    let whole = example().bytes();
    let wrong_row = PositionDraft { side: 9, ..written(9, 0, 0) };
    let wrong_series = SeriesDraft { pv: 0, ..SeriesDraft::checked(CALL) };
    vec![
        ("one byte", vec![0]),
        ("bytes of 255", vec![255; 100]),
        ("zero bytes", vec![0; 1000]),
        ("a series row", SeriesDraft::checked(PUT).bytes()),
        ("a position row", written(0, 1, 100_000).bytes()),
        ("series and position rows", whole[..whole.len() - 12].to_vec()),
        ("a whole file", whole.clone()),
        ("a trailer", example().trailer()),
        ("a whole file, shifted", [&[7], &whole[..], &[9, 9, 9]].concat()),
        ("up to the longest file", vec![0xA5; 65_536 - whole.len()]),
        ("a wrong position row", wrong_row.bytes()),
        ("a wrong series row", wrong_series.bytes()),
    ]
}
