//! Faults of the trailer.

use super::rows::{sound, written};
use super::Cases;
use crate::draft::{Draft, SeriesDraft, CALL};

pub fn add(cases: &mut Cases) {
    cases.begin("trailer faults");
    cases.accept("the sound account", sound());
    lengths(cases);
    counts(cases);
    distances(cases);
}

fn refuse(cases: &mut Cases, name: impl Into<String>, draft: Draft, number: i64) {
    cases.refuse(name, draft.bytes(), number, 0);
}

/// Refusal 1.
fn lengths(cases: &mut Cases) {
    let whole = sound().bytes();
    cases.refuse("no bytes", vec![], 1, 0);
    cases.refuse("one byte", vec![0], 1, 0);
    cases.refuse("11 bytes", whole[whole.len() - 11..].to_vec(), 1, 0);
    let cover = vec![1; 65_537 - whole.len()];
    refuse(cases, "65,537 bytes", Draft { cover, ..sound() }, 1);
}

/// Refusal 2.
fn counts(cases: &mut Cases) {
    cases.refuse("12 zero bytes", vec![0; 12], 2, 0);
    cases.refuse("12 bytes of 255", vec![255; 12], 2, 0);
    refuse(cases, "no series", Draft { series: vec![], ..sound() }, 2);
    let series = vec![SeriesDraft::checked(CALL); 33];
    refuse(cases, "33 series", Draft { series, ..sound() }, 2);
    for stated in [0, 33, 256, 65_535] {
        let draft = Draft { stated_s: Some(stated), ..sound() };
        refuse(cases, format!("s stated as {stated}"), draft, 2);
    }
    let positions = vec![written(0, 3100, 1); 257];
    refuse(cases, "257 positions", Draft { positions, ..sound() }, 2);
    for stated in [257, 512, 65_535] {
        let draft = Draft { stated_p: Some(stated), ..sound() };
        refuse(cases, format!("p stated as {stated}"), draft, 2);
    }
    for at in 0..4 {
        for value in [1, 128] {
            let mut draft = sound();
            draft.last_four[at] = value;
            refuse(cases, format!("last byte {at} is {value}"), draft, 2);
        }
    }
}

/// Refusal 4.
fn distances(cases: &mut Cases) {
    let whole = sound().bytes();
    let right = whole.len() as u32;
    for stated in [0, 12, right - 1, right + 1, right - 32, right + 24, u32::MAX, right + 65_536] {
        let draft = Draft { stated_distance: Some(stated), ..sound() };
        refuse(cases, format!("distance stated as {stated}"), draft.clone(), 4);
        // The same with a cover sheet that is long enough.
        let name = format!("distance stated as {stated}, with a cover sheet");
        refuse(cases, name, Draft { cover: vec![0; 100], ..draft }, 4);
    }
    for cut in [1, 24, 32, whole.len() - 12] {
        cases.refuse(format!("{cut} bytes cut from the front"), whole[cut..].to_vec(), 4, 0);
    }
    refuse(cases, "one series too few stated", Draft { stated_s: Some(2), ..sound() }, 4);
    refuse(cases, "one position too many stated", Draft { stated_p: Some(6), ..sound() }, 4);
}
