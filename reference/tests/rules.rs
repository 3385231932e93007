//! Rules worked out by hand from the document and the annex, beyond the
//! checked values. Those of limiters inside a spread are in `limiters.rs`.

use reference::account::fine;
use reference::draft::{
    example, Draft, PositionDraft, SeriesDraft, CALL, DOWN_AND_IN, DOWN_AND_OUT, HELD, PUT,
    UP_AND_IN, UP_AND_OUT, WRITTEN,
};
use reference::lines::{margin, margin_into, Entry};
use reference::output::margin_output;
use reference::pairing::allowed_spread;
use reference::position::{one_position, written_unit_margin};
use reference::reader::{read_account, Refusal};
use reference::spread::unit_spread_margin;

fn account(series: Vec<SeriesDraft>, rows: Vec<PositionDraft>) -> reference::account::Account {
    read_account(&Draft::new(series, rows).bytes()).expect("accepted")
}

fn written(strike: u32) -> PositionDraft {
    PositionDraft::plain(0, WRITTEN, strike, 1)
}

fn held(strike: u32) -> PositionDraft {
    PositionDraft::plain(0, HELD, strike, 1)
}

fn unit(type_byte: u8, row: PositionDraft) -> i64 {
    let account = account(vec![SeriesDraft::checked(type_byte)], vec![row]);
    written_unit_margin(&account.series[0], &account.positions[0].terms())
}

fn spread(type_byte: u8, w: PositionDraft, h: PositionDraft) -> Option<i64> {
    let account = account(vec![SeriesDraft::checked(type_byte)], vec![w, h]);
    let (w, h) = (account.positions[0].terms(), account.positions[1].terms());
    unit_spread_margin(&account.series[0], &h, &w)
}

// One position.

#[test]
fn misreadings_of_one_position() {
    // A rebate is not added to an unreachable knock-out.
    assert_eq!(unit(CALL, written(3100).with_barrier(UP_AND_OUT, 3601, 900)), fine(500));
    assert_eq!(unit(PUT, written(2900).with_barrier(DOWN_AND_OUT, 2399, 900)), fine(500));
    // Nor is it lost where the knock-out is just met.
    assert_eq!(unit(CALL, written(3100).with_barrier(UP_AND_OUT, 3600, 900)), fine(900));
    assert_eq!(unit(PUT, written(2900).with_barrier(DOWN_AND_OUT, 2400, 900)), fine(900));
    // After a down-and-in the high price is ID × fa, not the old H.
    assert_eq!(unit(CALL, written(2500).with_barrier(DOWN_AND_IN, 2500, 0)), fine(500));
    // H = IU and L = ID are within reach.
    assert_eq!(unit(CALL, written(3000).with_barrier(UP_AND_IN, 3600, 0)), fine(600));
    assert_eq!(unit(PUT, written(3000).with_barrier(DOWN_AND_IN, 2400, 0)), fine(600));
}

#[test]
fn puts_mirror_calls() {
    assert_eq!(unit(PUT, written(2900)), fine(500));
    assert_eq!(unit(PUT, written(2900).with_limiter(2700)), fine(200));
    assert_eq!(unit(PUT, written(2900).with_limiter(0)), fine(500));
    assert_eq!(unit(PUT, written(2500)), fine(150));
    assert_eq!(unit(PUT, written(2900).with_barrier(UP_AND_IN, 3601, 40)), fine(150));
    assert_eq!(unit(PUT, written(2900).with_barrier(DOWN_AND_IN, 2399, 160)), fine(160));
    assert_eq!(unit(PUT, written(2900).with_barrier(DOWN_AND_IN, 2400, 160)), fine(500));
    assert_eq!(unit(PUT, written(2900).with_barrier(UP_AND_OUT, 3601, 600)), fine(500));
    assert_eq!(unit(PUT, written(2900).with_barrier(UP_AND_OUT, 3600, 600)), fine(600));
    assert_eq!(unit(PUT, written(2900).with_barrier(DOWN_AND_OUT, 2399, 0)), fine(500));
    assert_eq!(
        unit(PUT, written(2900).with_limiter(2600).with_barrier(DOWN_AND_OUT, 2500, 0)),
        fine(300)
    );
}

#[test]
fn flag_1_drops_barrier_and_rebate() {
    let row = written(3100).with_barrier(UP_AND_IN, 3700, 900).knocked_in();
    assert_eq!(unit(CALL, row), fine(500));
    let row = written(2500).with_barrier(DOWN_AND_IN, 2400, 9_000).knocked_in();
    assert_eq!(unit(CALL, row), fine(1100));
}

#[test]
fn held_row_is_its_premium() {
    let row = PositionDraft::plain(0, HELD, 3100, 7).with_premium(13);
    let bytes = Draft::new(vec![SeriesDraft::checked(CALL)], vec![row]).bytes();
    assert_eq!(one_position(&bytes, 0), 13 * 5 * 7);
    assert_eq!(margin_output(&bytes), "left 0 7 0\npremium 455\ntotal 455\n");
}

#[test]
fn rounded_once_not_by_contract() {
    // A third of a tick a contract, nearly: 150 contracts are less than 50
    // centavos, and 100 once rounded up. Each rounded to a centavo, they would
    // be 150 centavos, and then 200.
    let series = SeriesDraft {
        pv: 1,
        fa: 1_000_000,
        fb: 1_000_000,
        f3: 333_333,
        m: 1,
        type_byte: CALL,
        spare: [0; 3],
    };
    let row = PositionDraft::plain(0, WRITTEN, 1, 150);
    assert_eq!(one_position(&Draft::new(vec![series], vec![row]).bytes(), 0), 100);
}

#[test]
fn one_row_asked_for() {
    let bytes = example().bytes();
    assert_eq!(one_position(&bytes, 0), 25_000);
    assert_eq!(one_position(&bytes, 1), 0);
    assert_eq!(one_position(&bytes, 2), 300);
    assert_eq!(one_position(&bytes, 3), -13);
    assert_eq!(one_position(&bytes, u64::MAX), -13);
    // The file comes before the row.
    assert_eq!(one_position(&bytes[1..], 3), -4);
    assert_eq!(one_position(&[], 0), -1);
}

// Spreads. Series: H 3600, L 2400, MM 150.

#[test]
fn spreads_without_barriers() {
    assert_eq!(spread(CALL, written(3100), held(3100)), Some(0));
    assert_eq!(spread(CALL, written(3100), held(3000)), Some(0));
    assert_eq!(spread(CALL, written(3100), held(3101)), Some(fine(1)));
    assert_eq!(spread(PUT, written(3100), held(3200)), Some(0));
    assert_eq!(spread(PUT, written(3100), held(3099)), Some(fine(1)));
}

#[test]
fn same_option_after_flag_1() {
    let knocked_in = written(3100).with_barrier(UP_AND_IN, 3700, 30).knocked_in();
    assert_eq!(spread(CALL, knocked_in, held(3100)), Some(0));
    assert_eq!(spread(CALL, knocked_in, held(3110)), Some(fine(10)));
    let not_yet = held(3100).with_barrier(UP_AND_IN, 3700, 30);
    assert_eq!(spread(CALL, knocked_in, not_yet), None);
    let in_both = |row: PositionDraft| row.with_barrier(UP_AND_IN, 3700, 30);
    assert_eq!(spread(CALL, in_both(written(3100)), in_both(held(3100))), Some(0));
    assert_eq!(spread(CALL, in_both(written(3100)), in_both(held(3099))), None);
}

#[test]
fn calls_down_and_out() {
    let w = |od, reb| written(3100).with_barrier(DOWN_AND_OUT, od, reb);
    let h = |pe, od, reb| held(pe).with_barrier(DOWN_AND_OUT, od, reb);
    // d.2
    assert_eq!(spread(CALL, w(2399, 60), h(3100, 2399, 25)), Some(0));
    // d.3; the held rebate counts only where the barriers are equal.
    assert_eq!(spread(CALL, w(2400, 60), h(3100, 2400, 25)), Some(fine(35)));
    assert_eq!(spread(CALL, w(2400, 60), h(3100, 2399, 25)), Some(fine(60)));
    assert_eq!(spread(CALL, w(2400, 25), h(3100, 2400, 60)), Some(0));
    // d.4
    assert_eq!(spread(CALL, w(2399, 900), h(3200, 2399, 0)), Some(fine(150)));
    assert_eq!(spread(CALL, w(2399, 900), h(3300, 2399, 0)), Some(fine(200)));
    assert_eq!(spread(CALL, w(2399, 900), h(3700, 2399, 0)), Some(fine(500)));
    // d.5
    assert_eq!(spread(CALL, w(2400, 900), h(3300, 2400, 100)), Some(fine(800)));
    assert_eq!(spread(CALL, w(2400, 160), h(3300, 2300, 100)), Some(fine(200)));
    // Held barrier above the written one.
    assert_eq!(spread(CALL, w(2400, 0), h(3100, 2401, 0)), None);
}

#[test]
fn calls_up_and_out() {
    let w = |ou, reb| written(3100).with_barrier(UP_AND_OUT, ou, reb);
    let h = |pe, ou, reb| held(pe).with_barrier(UP_AND_OUT, ou, reb);
    assert_eq!(spread(CALL, w(3601, 60), h(3000, 3601, 25)), Some(0));
    assert_eq!(spread(CALL, w(3600, 60), h(3000, 3600, 25)), Some(fine(35)));
    assert_eq!(spread(CALL, w(3600, 60), h(3000, 3601, 25)), Some(fine(60)));
    assert_eq!(spread(CALL, w(3601, 60), h(3900, 3601, 25)), Some(fine(500)));
    // e.5: OUw in place of H.
    assert_eq!(spread(CALL, w(3500, 60), h(3900, 3500, 25)), Some(fine(400)));
    assert_eq!(spread(CALL, w(3500, 60), h(3300, 3500, 25)), Some(fine(200)));
    assert_eq!(spread(CALL, w(3500, 60), h(3300, 3499, 25)), None);
}

#[test]
fn puts_down_and_out() {
    let w = |od, reb| written(2900).with_barrier(DOWN_AND_OUT, od, reb);
    let h = |pe, od, reb| held(pe).with_barrier(DOWN_AND_OUT, od, reb);
    assert_eq!(spread(PUT, w(2399, 60), h(2950, 2300, 25)), Some(0));
    assert_eq!(spread(PUT, w(2400, 60), h(2950, 2400, 25)), Some(fine(35)));
    assert_eq!(spread(PUT, w(2399, 60), h(2100, 2300, 25)), Some(fine(500)));
    // f.5: ODw in place of L.
    assert_eq!(spread(PUT, w(2500, 60), h(2100, 2300, 25)), Some(fine(400)));
    assert_eq!(spread(PUT, w(2500, 460), h(2100, 2300, 25)), Some(fine(460)));
    assert_eq!(spread(PUT, w(2500, 60), h(2700, 2500, 25)), Some(fine(200)));
}

#[test]
fn puts_up_and_out() {
    let w = |ou, reb| written(2900).with_barrier(UP_AND_OUT, ou, reb);
    let h = |pe, ou, reb| held(pe).with_barrier(UP_AND_OUT, ou, reb);
    assert_eq!(spread(PUT, w(3601, 60), h(2900, 3700, 25)), Some(0));
    assert_eq!(spread(PUT, w(3600, 60), h(2900, 3700, 25)), Some(fine(60)));
    assert_eq!(spread(PUT, w(3601, 960), h(2100, 3700, 25)), Some(fine(500)));
    // g.5: L stays.
    assert_eq!(spread(PUT, w(3600, 60), h(2100, 3700, 25)), Some(fine(500)));
    assert_eq!(spread(PUT, w(3600, 560), h(2100, 3700, 25)), Some(fine(560)));
    assert_eq!(spread(PUT, w(3600, 0), h(2850, 3600, 0)), Some(fine(150)));
}

// Pairing.

#[test]
fn each_row_by_itself_european_or_before_annex() {
    let pairs = |w: (bool, bool), h: (bool, bool)| {
        let rows = vec![written(3100).style(w.0, w.1), held(3100).style(h.0, h.1)];
        allowed_spread(&account(vec![SeriesDraft::checked(CALL)], rows), 0, 1).is_some()
    };
    assert!(pairs((true, false), (true, false)));
    assert!(pairs((true, false), (false, true)));
    assert!(pairs((false, true), (true, false)));
    assert!(pairs((false, true), (false, true)));
    assert!(!pairs((true, true), (false, false)));
    assert!(!pairs((false, false), (true, true)));
}

#[test]
fn ties() {
    let made = |rows: Vec<PositionDraft>| -> Vec<(usize, usize)> {
        let series = vec![SeriesDraft::checked(CALL), SeriesDraft::checked(CALL)];
        margin(&account(series, rows)).pairs.iter().map(|p| (p.written, p.held)).collect()
    };
    // The lowest held row.
    assert_eq!(made(vec![written(3100), held(3200), held(3000)]), [(0, 1)]);
    assert_eq!(made(vec![written(3100), held(3000), held(3200)]), [(0, 1)]);
    // The lowest written row comes before the lowest held row.
    let rows = vec![held(3050), written(3200), held(3250), written(3100)];
    assert_eq!(made(rows), [(1, 2), (3, 0)]);
    // All series together.
    let mut other = [written(3000), held(3009)];
    other[0].series = 1;
    other[1].series = 1;
    let rows = vec![written(3000), held(3010), other[0], other[1]];
    assert_eq!(made(rows), [(2, 3), (0, 1)]);
    // Never across series.
    assert_eq!(made(vec![written(3000), other[1]]), []);
}

// The caller's list.

#[test]
fn lines_in_the_lent_list() {
    let untouched: Entry = [77; 5];
    let mut list = [untouched; 8];
    assert_eq!(margin_into(&example().bytes(), &mut list), Ok((3, 10_800)));
    assert_eq!(list[..3], [[1, 0, 2, 3, 0], [1, 0, 1, 4, 3000], [2, 0, 3, 7500, 0]]);
    assert_eq!(list[3..], [untouched; 5]);
}

#[test]
fn list_too_short() {
    let untouched: Entry = [77; 5];
    let mut list = [untouched; 5];
    let bytes = example().bytes();
    for room in 0..=5 {
        let refused = Err(Refusal { number: 12, row: 0 });
        assert_eq!(margin_into(&bytes, &mut list[..room]), refused, "{room}");
        assert_eq!(list, [untouched; 5]);
    }
    // The file comes before the list.
    assert_eq!(margin_into(&bytes[1..], &mut list), Err(Refusal { number: 4, row: 0 }));
    let mut wrong = example();
    wrong.positions[2].quantity = 0;
    assert_eq!(margin_into(&wrong.bytes(), &mut list), Err(Refusal { number: 8, row: 2 }));
    assert_eq!(list, [untouched; 5]);
}

#[test]
fn refused_output() {
    let mut wrong = example();
    wrong.positions[2].quantity = 0;
    assert_eq!(margin_output(&wrong.bytes()), "refused 8 2\n");
    assert_eq!(margin_output(&[]), "refused 1 0\n");
}
