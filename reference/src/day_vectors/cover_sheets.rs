//! Cover sheets, which stay as they are, and accounts without positions.

use super::rows::{day, every_kind, one_of_every_kind, touched, BOTH};
use super::Cases;
use crate::draft::{Draft, SeriesDraft, CALL, PUT};

pub fn add(cases: &mut Cases) {
    cases.begin("cover sheets");
    let draft = one_of_every_kind();
    let whole = draft.bytes();
    for (name, cover) in covers(&draft) {
        let draft = Draft { cover, ..draft.clone() };
        cases.apply(name, &draft, BOTH, &touched(true, true));
    }
    let longest = Draft { cover: vec![0xA5; 65_536 - whole.len()], ..draft.clone() };
    cases.apply("up to the longest file", &longest, BOTH, &touched(true, true));
    // A day that is refused.
    for (name, cover) in covers(&draft) {
        let bytes = Draft { cover, ..draft.clone() }.bytes();
        cases.refuse(format!("{name}, refused"), bytes, day(0, 3400, 2600, 3401), 17, 0);
    }
}

fn covers(draft: &Draft) -> Vec<(&'static str, Vec<u8>)> {
    let whole = draft.bytes();
    let rows = &whole[..whole.len() - 12];
    let position_rows: Vec<u8> = every_kind(0).iter().flat_map(|row| row.bytes()).collect();
    vec![
        ("one byte", vec![0]),
        ("zero bytes", vec![0; 100]),
        ("bytes of 255", vec![255; 77]),
        ("a series row", SeriesDraft::checked(CALL).bytes()),
        ("position rows", position_rows),
        ("series and position rows", rows.to_vec()),
        ("a whole account", whole.clone()),
        ("a trailer", draft.trailer()),
        ("a whole account, shifted", [&[7], &whole[..], &[9, 9, 9]].concat()),
    ]
}

/// PV becomes the close there too.
pub fn add_without_positions(cases: &mut Cases) {
    cases.begin("no positions");
    for (name, types) in [("one call series", vec![CALL]), ("three series", vec![CALL, PUT, PUT])] {
        let series: Vec<SeriesDraft> = types.into_iter().map(SeriesDraft::checked).collect();
        let last = series.len() as u64 - 1;
        let draft = Draft::new(series, vec![]);
        cases.apply(name, &draft, day(last, 3400, 2600, 2601), &[]);
        cases.apply(format!("{name}, PV 1"), &draft, day(last, 1, 1, 1), &[]);
        // Before the series rows there stand rows, but none that are read.
        let draft = Draft { cover: one_of_every_kind().bytes(), ..draft };
        cases.apply(format!("{name}, a cover sheet"), &draft, day(last, 3400, 2600, 2601), &[]);
        cases.refuse(format!("{name}, refused"), draft.bytes(), day(last, 3400, 2600, 1), 17, 0);
    }
    let of_32 = Draft::new(vec![SeriesDraft::checked(CALL); 32], vec![]);
    for series in [0, 31] {
        cases.apply(format!("series {series} of 32"), &of_32, day(series, 9, 7, 8), &[]);
    }
}
