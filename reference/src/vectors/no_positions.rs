//! Accounts without positions.

use super::rows::sound;
use super::{Cases, SEED};
use crate::draft::{example, Draft, SeriesDraft, CALL, PUT};
use crate::random::Random;
use crate::sample::{sample_account, Shape};

/// No more than the series rows.
const ALL_SERIES: Shape = Shape {
    series: (32, 32),
    positions: (0, 0),
    pv: (1, 10_000_000),
    quantity: (1, 1),
    m: (1, 1_000),
    fb_above_one: true,
};

pub fn add(cases: &mut Cases) {
    cases.begin("no positions");
    accepted(cases);
    with_cover_sheets(cases);
    lengths_and_counts(cases);
    distances(cases);
    series_rows(cases);
    two_faults(cases);
}

fn of_series(series: Vec<SeriesDraft>) -> Draft {
    Draft::new(series, vec![])
}

/// The sound account's three series.
fn emptied() -> Draft {
    of_series(sound().series)
}

fn refuse(cases: &mut Cases, name: impl Into<String>, draft: Draft, number: i64, row: usize) {
    cases.refuse(name, draft.bytes(), number, row);
}

fn accepted(cases: &mut Cases) {
    cases.accept("one call series", of_series(vec![SeriesDraft::checked(CALL)]));
    cases.accept("one put series", of_series(vec![SeriesDraft::checked(PUT)]));
    cases.accept("three series", emptied());
    cases.accept("32 series", of_series(vec![SeriesDraft::checked(CALL); 32]));
    cases.accept("32 random series", sample_account(&mut Random::new(SEED + 5), &ALL_SERIES));
}

fn with_cover_sheets(cases: &mut Cases) {
    for count in [1, 32] {
        let draft = of_series(vec![SeriesDraft::checked(PUT); count]);
        let file = sound().bytes();
        for (name, cover) in [
            ("one byte", vec![0]),
            ("series and position rows", file[..file.len() - 12].to_vec()),
            ("a whole file with positions", file),
            ("up to the longest file", vec![0xA5; 65_536 - draft.bytes().len()]),
        ] {
            cases.accept(format!("{count} series, {name}"), Draft { cover, ..draft.clone() });
        }
    }
    // The other way round.
    cases.accept("before a file with positions", Draft { cover: emptied().bytes(), ..example() });
}

/// Refusals 1 and 2.
fn lengths_and_counts(cases: &mut Cases) {
    let cover = vec![1; 65_537 - emptied().bytes().len()];
    refuse(cases, "65,537 bytes", Draft { cover, ..emptied() }, 1, 0);
    refuse(cases, "no series", of_series(vec![]), 2, 0);
    refuse(cases, "33 series", of_series(vec![SeriesDraft::checked(CALL); 33]), 2, 0);
    for at in 0..4 {
        let mut draft = emptied();
        draft.last_four[at] = 1;
        refuse(cases, format!("last byte {at} is 1"), draft, 2, 0);
    }
}

/// Refusal 4.
fn distances(cases: &mut Cases) {
    let whole = emptied().bytes();
    let right = whole.len() as u32;
    for stated in [12, right - 1, right + 1, right + 32, u32::MAX] {
        let name = format!("distance stated as {stated}, with a cover sheet");
        let draft = Draft { stated_distance: Some(stated), ..emptied() };
        refuse(cases, name, Draft { cover: vec![0; 100], ..draft }, 4, 0);
    }
    for cut in [1, whole.len() - 12] {
        cases.refuse(format!("{cut} bytes cut from the front"), whole[cut..].to_vec(), 4, 0);
    }
    refuse(cases, "p stated as 0", Draft { stated_p: Some(0), ..sound() }, 4, 0);
}

/// Refusals 5 and 6.
fn series_rows(cases: &mut Cases) {
    for row in [0, 2] {
        let mut draft = emptied();
        draft.series[row].pv = 0;
        refuse(cases, format!("series row {row}: PV 0"), draft, 5, row);
        let mut draft = emptied();
        draft.series[row].type_byte = 2;
        refuse(cases, format!("series row {row}: type 2"), draft, 6, row);
    }
    let mut draft = of_series(vec![SeriesDraft::checked(CALL); 32]);
    draft.series[31].m = 0;
    refuse(cases, "series 31 of 32", draft, 5, 31);
    // The last 72 bytes of the position rows stand where the series rows should.
    let stated_distance = Some(emptied().bytes().len() as u32);
    let draft = Draft { stated_p: Some(0), stated_distance, ..sound() };
    refuse(cases, "p stated as 0, with the distance for it", draft, 5, 0);
}

fn two_faults(cases: &mut Cases) {
    let last_byte = Draft { last_four: [1, 0, 0, 0], stated_distance: Some(0), ..emptied() };
    refuse(cases, "a last byte and a wrong distance", last_byte, 2, 0);
    let mut draft = Draft { stated_distance: Some(13), ..emptied() };
    draft.series[0].pv = 0;
    refuse(cases, "a wrong distance and PV 0", draft, 4, 0);
    let mut draft = emptied();
    draft.series[0].spare[2] = 1;
    draft.series[2].pv = 0;
    refuse(cases, "a spare byte in series row 0 and PV 0 in series row 2", draft, 6, 0);
}
