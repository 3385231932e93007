//! Knock-outs that were touched (document 02 [5]): flag 16.

use std::cmp::Ordering;

use reference::account::{fine, Account, Barrier, OptionType, Position, Series, Side};
use reference::draft::{
    Draft, PositionDraft, SeriesDraft, CALL, DOWN_AND_IN, DOWN_AND_OUT, HELD, NO_BARRIER, PUT,
    UP_AND_IN, UP_AND_OUT, WRITTEN,
};
use reference::lines::margin;
use reference::output::margin_output;
use reference::pairing::allowed_spread;
use reference::paths::payment;
use reference::position::{one_position, written_unit_margin};
use reference::reader::read_account;
use reference::spread::unit_spread_margin;
use reference::vectors::{all_cases, Expect};

const KNOCK_OUTS: [(u8, u32); 2] = [(UP_AND_OUT, 3500), (DOWN_AND_OUT, 2500)];

/// The series of the checked values: H 3600, L 2400, MM 150.
fn draft(type_byte: u8, rows: Vec<PositionDraft>) -> Draft {
    Draft::new(vec![SeriesDraft::checked(type_byte)], rows)
}

fn account(type_byte: u8, rows: Vec<PositionDraft>) -> Account {
    read_account(&draft(type_byte, rows).bytes()).expect("accepted")
}

fn row(side: u8, kind: u8, price: u32, rebate: u32) -> PositionDraft {
    PositionDraft::plain(0, side, 3000, 1).with_barrier(kind, price, rebate)
}

/// The number of the refusal of a file with this row alone, 0 where it is
/// accepted.
fn outcome(row: PositionDraft) -> i64 {
    let bytes = draft(CALL, vec![row]).bytes();
    read_account(&bytes).map_or_else(|refusal| refusal.number, |_| 0)
}

#[test]
fn the_unit_margin_is_the_rebate() {
    for type_byte in [CALL, PUT] {
        for (kind, _) in KNOCK_OUTS {
            for price in [1, 2500, 2999, 3000, 3001, 3500, 10_000_000] {
                for rebate in [0, 1, 149, 150, 151, 10_000_000] {
                    let account =
                        account(type_byte, vec![row(WRITTEN, kind, price, rebate).knocked_out()]);
                    let terms = account.positions[0].terms();
                    let unit = written_unit_margin(&account.series[0], &terms);
                    assert_eq!(unit, fine(i64::from(rebate)));
                    let reais = (i64::from(rebate) * 5 + 99) / 100;
                    assert_eq!(margin(&account).total, reais * 100);
                }
            }
        }
    }
}

#[test]
fn the_rebate_on_every_path() {
    for type_byte in [CALL, PUT] {
        for (kind, price) in KNOCK_OUTS {
            let rows = [WRITTEN, HELD].map(|side| row(side, kind, price, 40).knocked_out());
            let account = account(type_byte, rows.to_vec());
            for position in &account.positions {
                for path in [&[2400][..], &[3000], &[3600], &[3000, 2500, 3000], &[3500, 3000]] {
                    let path: Vec<i64> = path.iter().map(|price| fine(*price)).collect();
                    let option_type = account.series[0].option_type;
                    assert_eq!(payment(option_type, &position.terms(), &path), fine(40));
                }
            }
        }
    }
}

/// Neither with the same row, nor with one that would pair without the flag.
#[test]
fn never_paired() {
    for type_byte in [CALL, PUT] {
        for (kind, price) in KNOCK_OUTS {
            let of = |side: u8, out: bool| {
                let row = row(side, kind, price, 200);
                if out {
                    row.knocked_out()
                } else {
                    row
                }
            };
            for (w, h) in [(false, false), (true, false), (false, true), (true, true)] {
                let account = account(type_byte, vec![of(WRITTEN, w), of(HELD, h)]);
                let [written, held] = [0, 1].map(|row| account.positions[row].terms());
                let spread = unit_spread_margin(&account.series[0], &held, &written);
                let expected = if w || h { None } else { Some(0) };
                assert_eq!(spread, expected);
                assert_eq!(allowed_spread(&account, 0, 1), expected);
            }
        }
    }
}

/// As without a barrier a row is not either: flag 16 is not flag 1.
#[test]
fn not_a_row_without_barrier() {
    for type_byte in [CALL, PUT] {
        for (kind, price) in KNOCK_OUTS {
            let plain = |side: u8| PositionDraft::plain(0, side, 3000, 1);
            let out = |side: u8| row(side, kind, price, 200).knocked_out();
            for rows in [vec![out(WRITTEN), plain(HELD)], vec![plain(WRITTEN), out(HELD)]] {
                assert_eq!(allowed_spread(&account(type_byte, rows), 0, 1), None);
            }
        }
    }
}

/// Its premium counts as before, and it is only ever left.
#[test]
fn a_held_row() {
    let held = PositionDraft { quantity: 4, ..row(HELD, UP_AND_OUT, 3500, 220) };
    let written = PositionDraft { quantity: 10, ..row(WRITTEN, UP_AND_OUT, 3500, 220) };
    let bytes = draft(CALL, vec![held.with_premium(7).knocked_out(), written]).bytes();
    assert_eq!(one_position(&bytes, 0), 7 * 5 * 4);
    assert_eq!(margin_output(&bytes), "left 0 4 0\nleft 1 10 25000\npremium 140\ntotal 25140\n");
}

#[test]
fn allowed_on_knock_outs_alone() {
    for (kind, price, refused) in [
        (NO_BARRIER, 0, 7),
        (UP_AND_IN, 3500, 7),
        (DOWN_AND_IN, 2500, 7),
        (UP_AND_OUT, 3500, 0),
        (DOWN_AND_OUT, 2500, 0),
        (5, 3500, 7),
    ] {
        for side in [WRITTEN, HELD] {
            let out = row(side, kind, price, 0).knocked_out();
            assert_eq!(outcome(out), refused, "kind {kind}");
            assert_eq!(outcome(out.knocked_in()), 7, "kind {kind}");
            for bit in [32, 64, 128] {
                assert_eq!(outcome(PositionDraft { flags: out.flags | bit, ..out }), 7);
                assert_eq!(outcome(PositionDraft { flags: bit, ..out }), 7);
            }
        }
    }
}

/// The side of PV is free (refusal 11), the range of the price is not (10).
#[test]
fn the_side_of_pv_alone_is_free() {
    for (kind, _) in KNOCK_OUTS {
        for price in [1, 2999, 3000, 3001, 10_000_000] {
            assert_eq!(outcome(row(WRITTEN, kind, price, 5).knocked_out()), 0);
        }
        for price in [0, 10_000_001, u32::MAX] {
            assert_eq!(outcome(row(WRITTEN, kind, price, 5).knocked_out()), 10);
        }
        assert_eq!(outcome(row(WRITTEN, kind, 3000, 10_000_001).knocked_out()), 8);
        assert_eq!(outcome(row(WRITTEN, kind, 3000, 5).with_limiter(3000).knocked_out()), 9);
        assert_eq!(outcome(row(WRITTEN, kind, 3000, 5)), 11);
    }
}

/// Type, side, kind, the barrier's side of PV, and how REB stands to MM.
type Sort = (OptionType, Side, u8, Ordering, &'static str);

fn sort(series: &Series, position: &Position) -> Sort {
    let (kind, price) = match position.barrier {
        Barrier::UpAndOut(price) => (UP_AND_OUT, price),
        Barrier::DownAndOut(price) => (DOWN_AND_OUT, price),
        other => panic!("flag 16 on {other:?}"),
    };
    let rebate = match fine(position.rebate).cmp(&series.minimum_margin()) {
        _ if position.rebate == 0 => "none",
        Ordering::Less => "below MM",
        Ordering::Equal => "MM",
        Ordering::Greater => "above MM",
    };
    (series.option_type, position.side, kind, price.cmp(&series.pv), rebate)
}

/// The vectors have written rows with flag 16 of every sort, and held ones of
/// every type and kind.
#[test]
fn vectors_of_every_sort() {
    let mut found = Vec::new();
    for account in all_cases().iter().filter_map(|case| read_account(&case.bytes).ok()) {
        let knocked_out = account.positions.iter().filter(|p| p.already_knocked_out);
        found.extend(knocked_out.map(|p| sort(&account.series[p.series], p)));
    }
    for option_type in [OptionType::Call, OptionType::Put] {
        for (kind, _) in KNOCK_OUTS {
            for side_of_pv in [Ordering::Less, Ordering::Equal, Ordering::Greater] {
                for rebate in ["none", "below MM", "MM", "above MM"] {
                    let sort = (option_type, Side::Written, kind, side_of_pv, rebate);
                    assert!(found.contains(&sort), "{sort:?}");
                }
            }
            assert!(found.iter().any(|f| (f.0, f.1, f.2) == (option_type, Side::Held, kind)));
        }
    }
}

/// In some account a held and a written row are the same but for flag 16 on
/// one of them, or on both, and have contracts left that would pair without it.
#[test]
fn vectors_of_rows_that_would_pair() {
    let mut found = Vec::new();
    for account in all_cases().iter().filter_map(|case| read_account(&case.bytes).ok()) {
        let left: Vec<usize> = margin(&account).left.iter().map(|left| left.row).collect();
        let mut without = account.clone();
        without.positions.iter_mut().for_each(|position| position.already_knocked_out = false);
        for (w, h) in left.iter().flat_map(|w| left.iter().map(move |h| (*w, *h))) {
            let would_pair = allowed_spread(&without, w, h).is_some();
            if would_pair {
                let out = |row: usize| account.positions[row].already_knocked_out;
                let same = without.positions[w].terms() == without.positions[h].terms();
                found.push((same, out(w), out(h)));
            }
        }
    }
    for same in [true, false] {
        for out in [(true, false), (false, true), (true, true)] {
            assert!(found.contains(&(same, out.0, out.1)), "{same} {out:?}");
        }
    }
}

/// Refusals 7 to 11 of rows with flag 16, by the cases made for them.
#[test]
fn vectors_of_every_refusal() {
    let cases = all_cases();
    let count = |number: i64| {
        let of_number = |expect| matches!(expect, Expect::Refused(found, _) if found == number);
        cases
            .iter()
            .filter(|case| case.group == "knocked out, faults" && of_number(case.expect))
            .count()
    };
    for (number, expected) in [(7, 41), (8, 6), (9, 4), (10, 8), (11, 6)] {
        assert_eq!(count(number), expected, "{number}");
    }
}
