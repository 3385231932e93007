//! Every checked value of the document, and its example output.

use reference::account::fine;
use reference::draft::{
    example, Draft, PositionDraft, SeriesDraft, CALL, DOWN_AND_IN, DOWN_AND_OUT, HELD, PUT,
    UP_AND_IN, UP_AND_OUT, WRITTEN,
};
use reference::lines::margin;
use reference::output::margin_output;
use reference::pairing::allowed_spread;
use reference::position::{one_position, position_amount, written_unit_margin};
use reference::reader::read_account;
use reference::spread::unit_spread_margin;

/// Unit margin, in fine units, of a written row in the series of the checked
/// values.
fn unit(type_byte: u8, row: PositionDraft) -> i64 {
    let draft = Draft::new(vec![SeriesDraft::checked(type_byte)], vec![row]);
    let account = read_account(&draft.bytes()).expect("accepted");
    written_unit_margin(&account.series[0], &account.positions[0].terms())
}

fn call(strike: u32) -> PositionDraft {
    PositionDraft::plain(0, WRITTEN, strike, 1)
}

fn put(strike: u32) -> PositionDraft {
    PositionDraft::plain(0, WRITTEN, strike, 1)
}

fn held(strike: u32) -> PositionDraft {
    PositionDraft::plain(0, HELD, strike, 1)
}

/// Unit spread margin of a written and a held call, if they pair at all, and
/// whether the pair is allowed.
fn spread(written: PositionDraft, held: PositionDraft) -> (Option<i64>, bool) {
    let draft = Draft::new(vec![SeriesDraft::checked(CALL)], vec![written, held]);
    let account = read_account(&draft.bytes()).expect("accepted");
    let (w, h) = (account.positions[0].terms(), account.positions[1].terms());
    let spread = unit_spread_margin(&account.series[0], &h, &w);
    let allowed = allowed_spread(&account, 0, 1);
    assert!(allowed.is_none() || allowed == spread);
    (spread, allowed.is_some())
}

#[test]
fn series() {
    for type_byte in [CALL, PUT] {
        let draft = Draft::new(vec![SeriesDraft::checked(type_byte)], vec![call(3100)]);
        let account = read_account(&draft.bytes()).expect("accepted");
        assert_eq!(account.series[0].high(), fine(3600));
        assert_eq!(account.series[0].low(), fine(2400));
        assert_eq!(account.series[0].minimum_margin(), fine(150));
    }
}

#[test]
fn plain_calls() {
    assert_eq!(unit(CALL, call(3100)), fine(500));
    assert_eq!(unit(CALL, call(3100).with_limiter(3300)), fine(200));
}

#[test]
fn up_and_in() {
    assert_eq!(unit(CALL, call(3100).with_barrier(UP_AND_IN, 3700, 40)), fine(150));
    assert_eq!(unit(CALL, call(3100).with_barrier(UP_AND_IN, 3600, 40)), fine(500));
}

#[test]
fn down_and_in() {
    assert_eq!(unit(CALL, call(3100).with_barrier(DOWN_AND_IN, 2300, 0)), fine(150));
    assert_eq!(unit(CALL, call(2500).with_barrier(DOWN_AND_IN, 2400, 0)), fine(380));
}

#[test]
fn down_and_out() {
    assert_eq!(unit(CALL, call(3100).with_barrier(DOWN_AND_OUT, 2300, 600)), fine(500));
    assert_eq!(unit(CALL, call(3100).with_barrier(DOWN_AND_OUT, 2400, 600)), fine(600));
}

#[test]
fn up_and_out() {
    assert_eq!(unit(CALL, call(3100).with_barrier(UP_AND_OUT, 3601, 0)), fine(500));
    assert_eq!(unit(CALL, call(3100).with_barrier(UP_AND_OUT, 3500, 40)), fine(400));
}

#[test]
fn puts() {
    assert_eq!(unit(PUT, put(3200).with_barrier(UP_AND_IN, 3600, 0)), fine(320));
    assert_eq!(unit(PUT, put(2900).with_barrier(DOWN_AND_OUT, 2500, 0)), fine(400));
}

#[test]
fn pairs_without_barriers() {
    assert_eq!(spread(call(3100), held(3250)), (Some(fine(150)), true));
    // The spread is 500, the written margin is 500: no pair.
    assert_eq!(spread(call(3100), held(3600)), (Some(fine(500)), false));
}

#[test]
fn pairs_with_down_and_out() {
    let written = call(3100).with_barrier(DOWN_AND_OUT, 2400, 60);
    let same = held(3000).with_barrier(DOWN_AND_OUT, 2400, 25);
    let higher = held(3000).with_barrier(DOWN_AND_OUT, 2500, 25);
    assert_eq!(spread(written, same), (Some(fine(35)), true));
    assert_eq!(spread(written, higher), (None, false));
}

/// 30247 in document 01, 30300 since document 02 [6].
#[test]
fn rounded_amount() {
    let mut series = SeriesDraft::checked(CALL);
    series.pv = 3001;
    series.fa = 1_234_567;
    let row = PositionDraft::plain(0, WRITTEN, 3100, 10);
    let bytes = Draft::new(vec![series], vec![row]).bytes();
    let account = read_account(&bytes).expect("accepted");
    assert_eq!(position_amount(&account, 0), 30_300);
    assert_eq!(one_position(&bytes, 0), 30_300);
    assert_eq!(margin_output(&bytes), "left 0 10 30300\npremium 0\ntotal 30300\n");
}

#[test]
fn example_output() {
    let bytes = example().bytes();
    let expected = "pair 0 2 3 0\n\
                    pair 0 1 4 3000\n\
                    left 0 3 7500\n\
                    premium 300\n\
                    total 10800\n";
    assert_eq!(margin_output(&bytes), expected);
    assert_eq!(margin(&read_account(&bytes).unwrap()).total, 10_800);
}
