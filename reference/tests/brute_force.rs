//! The brute force finds nothing in the reference, and finds what it should in
//! wrong answers.

use reference::account::Account;
use reference::brute_force::{check, limited_pairs, reference_claim, Claim};
use reference::draft::{
    example, Draft, PositionDraft, SeriesDraft, CALL, HELD, PUT, UP_AND_OUT, WRITTEN,
};
use reference::lines::{margin, Left, Margin};
use reference::pairing::Pair;
use reference::paths::{is_path, payment};
use reference::random::Random;
use reference::reader::read_account;
use reference::sample::{limited_alike, sample_account, some_knocked_out, Shape};

fn example_account() -> Account {
    read_account(&example().bytes()).unwrap()
}

#[test]
fn random_small_accounts() {
    let shape = Shape {
        series: (1, 2),
        positions: (0, 6),
        pv: (2, 60),
        quantity: (1, 5),
        m: (1, 1_000),
        fb_above_one: true,
    };
    let mut random = Random::new(7);
    let (mut limited, mut knocked_out, mut half_paired) = (0, 0, 0);
    for number in 0..1_200 {
        let mut draft = sample_account(&mut random, &shape);
        if number >= 400 {
            draft = limited_alike(&mut random, draft);
        }
        if number >= 800 {
            draft = some_knocked_out(&mut random, draft);
        }
        let account = read_account(&draft.bytes()).expect("accepted");
        let claim = reference_claim(&account);
        if let Err(violation) = check(&account, &claim, 4) {
            panic!("{violation}\n{account:#?}\n{claim:#?}");
        }
        limited += limited_pairs(&account, &claim.margin);
        knocked_out += account.positions.iter().filter(|p| p.already_knocked_out).count();
        half_paired += claim.half_paired.iter().filter(|half| !half.pairs.is_empty()).count();
    }
    assert!(half_paired > 50, "{half_paired} half-paired");
    assert!(limited > 50, "{limited} limited pairs");
    assert!(knocked_out > 200, "{knocked_out} rows knocked out");
}

/// The violation found in a changed answer to the example.
fn found(change: impl Fn(&mut Claim)) -> String {
    let account = example_account();
    let mut claim = reference_claim(&account);
    assert!(check(&account, &claim, 4).is_ok());
    change(&mut claim);
    check(&account, &claim, 4).unwrap_err()
}

#[test]
fn total_zero_is_found() {
    assert!(found(|claim| claim.margin.total = 0).starts_with("the cover"));
}

#[test]
fn enormous_unit_margin_is_found() {
    assert!(found(|claim| claim.units[0] = 1 << 60).starts_with("the least amount"));
    // Two fine units more than needed are too many.
    assert!(found(|claim| claim.units[0] += 2).starts_with("the least amount"));
}

#[test]
fn unit_margin_one_too_small_is_found() {
    assert!(found(|claim| claim.units[0] -= 1).starts_with("the least amount"));
}

#[test]
fn no_pair_at_all_is_found() {
    let no_pairs = |claim: &mut Claim| {
        claim.margin = Margin {
            pairs: vec![],
            left: vec![
                Left { row: 0, quantity: 10, amount: 25_000 },
                Left { row: 1, quantity: 4, amount: 0 },
                Left { row: 2, quantity: 3, amount: 0 },
            ],
            premium: 300,
            total: 25_300,
        }
    };
    assert!(found(no_pairs).starts_with("pairs left unmade"));
}

#[test]
fn lost_contracts_are_found() {
    assert!(found(|claim| claim.margin.left.clear()).starts_with("contracts"));
}

/// The example after no pair and after one. At 3600 its written row pays 25,000
/// centavos, and the held row of the first pair brings in 9,000.
#[test]
fn half_paired_accounts_that_are_not_covered_are_found() {
    let account = example_account();
    let right = reference_claim(&account);
    for (pairs, amount, worst) in [(0, 25_300, 25_000), (1, 17_800, 16_000)] {
        assert_eq!(right.half_paired[pairs].total, amount);
        let mut claim = right.clone();
        claim.half_paired[pairs].total = worst;
        assert!(check(&account, &claim, 4).is_ok());
        for total in [worst - 1, 0] {
            claim.half_paired[pairs].total = total;
            let words = format!("the cover: total {total} centavos with {pairs} pairs");
            assert!(check(&account, &claim, 4).unwrap_err().starts_with(&words));
        }
    }
    assert_eq!(right.half_paired.len(), 2);
}

#[test]
fn lost_contracts_of_half_paired_accounts_are_found() {
    assert!(found(|claim| claim.half_paired[0].left.clear()).starts_with("contracts"));
    assert!(found(|claim| claim.half_paired[1].left.clear()).starts_with("contracts"));
    assert!(found(|claim| claim.half_paired[1].pairs.clear()).starts_with("contracts"));
}

/// Checks a pair of one strike, 3000, and these limiters, claimed to need no
/// margin.
fn claimed_pair(
    type_byte: u8,
    of_held: Option<u32>,
    of_written: Option<u32>,
) -> Result<(), String> {
    let row = |side: u8, limiter: Option<u32>| {
        let plain = PositionDraft::plain(0, side, 3000, 1);
        limiter.map_or(plain, |price| plain.with_limiter(price))
    };
    let rows = vec![row(WRITTEN, of_written), row(HELD, of_held)];
    let draft = Draft::new(vec![SeriesDraft::checked(type_byte)], rows);
    let account = read_account(&draft.bytes()).expect("accepted");
    let pair = Pair { written: 0, held: 1, quantity: 1, amount: 0 };
    let margin = Margin { pairs: vec![pair], left: vec![], premium: 0, total: 0 };
    let claim = Claim { margin, ..reference_claim(&account) };
    check(&account, &claim, 4).map(|_| ())
}

/// The held row of a pair that limiters bar does not cover the written one.
#[test]
fn pairs_barred_by_limiters_are_found() {
    for (type_byte, of_held, of_written) in [
        (CALL, Some(3299), Some(3300)),
        (CALL, Some(3599), None),
        (PUT, Some(2701), Some(2700)),
        (PUT, Some(2401), None),
    ] {
        let violation = claimed_pair(type_byte, of_held, of_written).unwrap_err();
        assert!(violation.starts_with("the cover"), "{violation}");
    }
    for (type_byte, of_held, of_written) in [
        (CALL, Some(3300), Some(3300)),
        (CALL, Some(3301), Some(3300)),
        (CALL, None, Some(3300)),
        (PUT, Some(2700), Some(2700)),
        (PUT, Some(2699), Some(2700)),
        (PUT, None, Some(2700)),
    ] {
        assert_eq!(claimed_pair(type_byte, of_held, of_written), Ok(()));
    }
}

/// The violation found in a changed answer to a written knock-out with flag 16,
/// REB 40 and MM 150.
fn found_of_knocked_out(change: impl Fn(&mut Claim)) -> String {
    let row = PositionDraft::plain(0, WRITTEN, 3100, 10).with_barrier(UP_AND_OUT, 3500, 40);
    let draft = Draft::new(vec![SeriesDraft::checked(CALL)], vec![row.knocked_out()]);
    let account = read_account(&draft.bytes()).expect("accepted");
    let mut claim = reference_claim(&account);
    assert!(check(&account, &claim, 4).is_ok());
    change(&mut claim);
    check(&account, &claim, 4).unwrap_err()
}

/// Its least amount is REB: no fine unit less and none more, whatever MM is.
#[test]
fn other_unit_margins_of_a_row_knocked_out_are_found() {
    let tick = 1_000_000;
    for unit in [0, 40 * tick - 1, 40 * tick + 1, 150 * tick] {
        let violation = found_of_knocked_out(|claim| claim.units[0] = unit);
        assert!(violation.starts_with("the least amount"), "{violation}");
    }
    let violation = found_of_knocked_out(|claim| claim.margin.total -= 1);
    assert!(violation.starts_with("the cover"), "{violation}");
}

/// PV 3001, fa 1,234,567, PE 3100, Q 10: the worst path takes 30246.77835
/// centavos. Rounded up to 30300 (document 02 [6]) the total covers it.
#[test]
fn an_amount_rounded_down_is_found() {
    let series = SeriesDraft { pv: 3001, fa: 1_234_567, ..SeriesDraft::checked(CALL) };
    let draft = Draft::new(vec![series], vec![PositionDraft::plain(0, WRITTEN, 3100, 10)]);
    let account = read_account(&draft.bytes()).expect("accepted");
    let mut claim = reference_claim(&account);
    assert_eq!(claim.margin.total, 30_300);
    for (total, covers) in [(30_300, true), (30_247, true), (30_246, false), (30_200, false)] {
        claim.margin.total = total;
        assert_eq!(check(&account, &claim, 4).is_ok(), covers, "{total}");
    }
}

/// Nothing is owed on any path of any series.
#[test]
fn an_account_without_positions_is_covered() {
    let mut last = SeriesDraft::checked(CALL);
    last.pv = 1;
    let draft = Draft::new(vec![SeriesDraft::checked(CALL), last], vec![]);
    let account = read_account(&draft.bytes()).expect("accepted");
    let mut claim = reference_claim(&account);
    assert!(claim.units.is_empty());
    let one_series = Account { series: account.series[..1].to_vec(), positions: vec![] };
    let steps_of_one = check(&one_series, &claim, 4).expect("no violation");
    let steps = check(&account, &claim, 4).expect("no violation");
    assert!(steps > steps_of_one && steps_of_one > 0);
    claim.margin.total = -1;
    assert!(check(&account, &claim, 4).unwrap_err().starts_with("the cover"));
}

#[test]
fn paths() {
    let account = example_account();
    let series = &account.series[0];
    let tick = 1_000_000;
    assert!(!is_path(series, &[]));
    assert!(is_path(series, &[3600 * tick]));
    assert!(!is_path(series, &[3600 * tick + 1]));
    assert!(!is_path(series, &[2400 * tick - 1]));
    assert!(is_path(series, &[2400 * tick, 2880 * tick]));
    assert!(!is_path(series, &[2400 * tick, 2880 * tick + 1]));
    // Every later price is bound by every earlier one.
    assert!(is_path(series, &[2400 * tick, 2700 * tick]));
    assert!(is_path(series, &[2700 * tick, 3000 * tick]));
    assert!(!is_path(series, &[2400 * tick, 2700 * tick, 3000 * tick]));
}

#[test]
fn payments_about_a_barrier() {
    let row = PositionDraft::plain(0, WRITTEN, 3100, 1).with_barrier(UP_AND_OUT, 3500, 40);
    let draft = Draft::new(vec![SeriesDraft::checked(CALL)], vec![row]);
    let account = read_account(&draft.bytes()).unwrap();
    let series = &account.series[0];
    let terms = account.positions[0].terms();
    let tick = 1_000_000;
    let pays = |prices: &[i64]| payment(series.option_type, &terms, prices);
    assert_eq!(pays(&[3500 * tick - 1]), 400 * tick - 1);
    assert_eq!(pays(&[3500 * tick]), 40 * tick);
    assert_eq!(pays(&[3500 * tick, 3400 * tick]), 40 * tick);
    assert_eq!(pays(&[3000 * tick]), 0);
    // The margin is 400 ticks: one fine unit above what is ever paid.
    assert_eq!(margin(&account).total, 400 * 5);
    assert!(check(&account, &reference_claim(&account), 4).is_ok());
}
