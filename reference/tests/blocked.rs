//! Contracts blocked as collateral (document 02 [9]): the number in the row,
//! pairs, left lines, the list, and what stays over Q.

use reference::account::{Account, Side};
use reference::day::{apply_day, Day};
use reference::draft::{
    example, file, held, written, Draft, PositionDraft, SeriesDraft, CALL, HELD, UP_AND_OUT,
};
use reference::instalments::{amount_so_far, pair_into, take_apart_in, HalfPaired};
use reference::lines::{margin, margin_into, premiums, Entry};
use reference::output::margin_output;
use reference::position::one_position;
use reference::random::Random;
use reference::reader::{read_account, Refusal};
use reference::sample::{limited_alike, sample_account, some_blocked, some_knocked_out, Shape};

const SMALL: Shape = Shape {
    series: (1, 2),
    positions: (0, 16),
    pv: (2, 60),
    quantity: (1, 9),
    m: (1, 30),
    fb_above_one: true,
};

const UNTOUCHED: Entry = [77; 5];

fn random_drafts(seed: u64, count: usize) -> Vec<Draft> {
    let mut random = Random::new(seed);
    let mut draw = || {
        let draft = sample_account(&mut random, &SMALL);
        let limited = limited_alike(&mut random, draft);
        let out = some_knocked_out(&mut random, limited);
        some_blocked(&mut random, out)
    };
    (0..count).map(|_| draw()).collect()
}

fn of_calls(rows: &[PositionDraft]) -> Vec<u8> {
    file(SeriesDraft::checked(CALL), rows)
}

fn account_of(bytes: &[u8]) -> Account {
    read_account(bytes).expect("accepted")
}

/// The refusal of an account of one row, by its number.
fn refusal_of(row: PositionDraft) -> Option<i64> {
    let refusal = read_account(&of_calls(&[row])).err()?;
    assert_eq!(refusal.row, 0);
    Some(refusal.number)
}

/// Bytes 5 to 7 of the row, the lowest first.
#[test]
fn a_number_of_24_bits() {
    let mut bytes = of_calls(&[held(3000, 100_000)]);
    let row = bytes.len() - 12 - 32;
    for (three, number) in
        [([1, 0, 0], 1), ([0, 1, 0], 256), ([0, 0, 1], 65_536), ([3, 2, 1], 66_051)]
    {
        bytes[row + 5..row + 8].copy_from_slice(&three);
        assert_eq!(account_of(&bytes).positions[0].blocked, number);
    }
    bytes[row + 5..row + 8].copy_from_slice(&[1, 2, 3]);
    assert_eq!(read_account(&bytes), Err(Refusal { number: 8, row: 0 }));
}

/// At most Q on a held row, and none on a written one; 7 before 8.
#[test]
fn refusals_7_and_8() {
    for quantity in [1, 10, 256, 65_536, 100_000] {
        for (blocked, of_held) in [
            (0, None),
            (1, None),
            (quantity - 1, None),
            (quantity, None),
            (quantity + 1, Some(8)),
            (quantity + 65_536, Some(8)),
            (0xFF_FFFF, Some(8)),
        ] {
            assert_eq!(refusal_of(held(3000, quantity).with_blocked(blocked)), of_held);
            let of_written = if blocked == 0 { None } else { Some(7) };
            assert_eq!(refusal_of(written(3000, quantity).with_blocked(blocked)), of_written);
        }
    }
    let above = held(3000, 10).with_blocked(11);
    assert_eq!(refusal_of(PositionDraft { flags: 32, ..above }), Some(7));
    assert_eq!(refusal_of(PositionDraft { limiter: 1, ..above }), Some(8));
    assert_eq!(refusal_of(PositionDraft { limiter: 1, blocked: 10, ..above }), Some(9));
    assert_eq!(
        refusal_of(PositionDraft { quantity: 0, ..written(3000, 1).with_blocked(1) }),
        Some(7)
    );
}

/// The document's example with 2 of the 3 nearest contracts blocked and 1 of the
/// other 4: 150 ticks of three are 2,250 centavos, rounded up.
#[test]
fn the_documents_example_with_blocked_contracts() {
    let mut draft = example();
    draft.positions[2].blocked = 2;
    draft.positions[1].blocked = 1;
    let expected = "pair 0 2 1 0\npair 0 1 3 2300\nleft 0 6 15000\nleft 1 1 0\nleft 2 2 0\n\
                    premium 300\ntotal 17600\n";
    assert_eq!(margin_output(&draft.bytes()), expected);
    // All of them.
    draft.positions[2].blocked = 3;
    draft.positions[1].blocked = 4;
    let expected = "left 0 10 25000\nleft 1 4 0\nleft 2 3 0\npremium 300\ntotal 25300\n";
    assert_eq!(margin_output(&draft.bytes()), expected);
}

/// Wholly blocked, the nearest row is passed over; spent for pairing, a row
/// still has a left line.
#[test]
fn the_next_row_is_taken() {
    let rows = [
        written(3000, 5),
        held(3000, 2).with_blocked(2),
        held(3010, 3).with_blocked(1),
        held(3020, 9),
    ];
    let expected = "pair 0 2 2 100\npair 0 3 3 300\nleft 1 2 0\nleft 2 1 0\nleft 3 6 0\n\
                    premium 0\ntotal 400\n";
    assert_eq!(margin_output(&of_calls(&rows)), expected);
}

/// Premiums, and the amount of a row by itself.
#[test]
fn amounts_over_all_contracts() {
    for blocked in 0..=7 {
        let row = held(3000, 7).with_premium(13).with_blocked(blocked);
        let bytes = of_calls(&[row, written(3000, 7)]);
        assert_eq!(one_position(&bytes, 0), 13 * 5 * 7);
        assert_eq!(one_position(&bytes, 1), 600 * 5 * 7);
        assert_eq!(premiums(&bytes), Ok(13 * 5 * 7));
        assert_eq!(margin(&account_of(&bytes)).total, 455 + 3_000 * i64::from(blocked));
    }
}

/// 2 × p − 1 lines, with one written row for all and a contract of each held row
/// blocked; one entry less than 2 × p is refused by every call.
#[test]
fn the_most_lines_and_the_list_for_them() {
    for p in [1, 2, 8, 255, 256u32] {
        let mut rows: Vec<PositionDraft> = vec![written(3000, 100_000)];
        rows.extend((1..p).map(|number| held(3000 + number, 3).with_blocked(1)));
        let bytes = of_calls(&rows);
        let (needed, pairs) = (2 * p as usize, u64::from(p) - 1);
        let mut list = vec![UNTOUCHED; needed + 1];
        let (lines, _) = margin_into(&bytes, &mut list[..needed]).expect("accepted");
        assert_eq!(lines, needed - 1);
        assert_eq!(list[needed - 1..], [UNTOUCHED; 2]);
        for (at, line) in list[..lines].iter().enumerate() {
            assert_eq!(line[0], if at < pairs as usize { 1 } else { 2 });
        }
        let refused = Refusal { number: 12, row: 0 };
        for room in [0, p as usize / 2, p as usize, needed - 1] {
            let mut short = list[..room].to_vec();
            assert_eq!(margin_into(&bytes, &mut short), Err(refused));
            assert_eq!(pair_into(&bytes, &mut short, 0, 1), Err(refused));
            assert_eq!(amount_so_far(&bytes, &short, pairs), Err(refused));
            assert_eq!(take_apart_in(&bytes, &mut short, pairs, pairs), Err(refused));
            assert_eq!(short, list[..room]);
        }
        assert!(amount_so_far(&bytes, &list[..needed], pairs).is_ok());
        assert_eq!(take_apart_in(&bytes, &mut list[..needed], pairs, pairs), Ok(0));
    }
}

/// The same account without its blocked contracts; a row of which all are
/// blocked is kept from pairing by its style instead.
fn without_blocked(draft: &Draft) -> Draft {
    let mut other = draft.clone();
    for row in &mut other.positions {
        if row.blocked == row.quantity {
            *row = row.style(false, false);
        } else {
            row.quantity -= row.blocked;
        }
        row.blocked = 0;
    }
    other
}

/// Pairs and amounts are those of the account without its blocked contracts,
/// and each left line has those more. Only the premiums are over Q.
#[test]
fn blocked_contracts_add_to_left_lines_alone() {
    let (mut partly, mut wholly) = (0, 0);
    for draft in random_drafts(1, 2_000) {
        let (account, other) =
            (account_of(&draft.bytes()), account_of(&without_blocked(&draft).bytes()));
        let (found, expected) = (margin(&account), margin(&other));
        assert_eq!(found.pairs, expected.pairs);
        assert_eq!(found.total - found.premium, expected.total - expected.premium);
        for (row, position) in account.positions.iter().enumerate() {
            let left = |margin: &reference::lines::Margin| {
                margin.left.iter().find(|l| l.row == row).map_or(0, |l| l.quantity)
            };
            let all = position.blocked == position.quantity;
            let more = if all { 0 } else { position.blocked };
            assert_eq!(left(&found), left(&expected) + more);
            assert!(position.side == Side::Held || position.blocked == 0);
            (partly, wholly) =
                (partly + usize::from(more > 0), wholly + usize::from(all && more == 0));
        }
    }
    assert!(partly > 1_000 && wholly > 500, "{partly} {wholly}");
}

/// In instalments, and with pairs taken apart: the pairs are the first ones of
/// the full pairing, and the amount is the total of the account without its
/// blocked contracts with as many pairs, but for the premiums.
#[test]
fn instalments_and_pairs_taken_apart() {
    let mut random = Random::new(5);
    let mut pairs = 0;
    for draft in random_drafts(2, 400) {
        let (bytes, other) = (draft.bytes(), without_blocked(&draft).bytes());
        let all = margin(&account_of(&bytes)).pairs;
        let more = premiums(&bytes).unwrap() - premiums(&other).unwrap();
        let mut list = vec![UNTOUCHED; 2 * draft.positions.len()];
        let mut of_other = list.clone();
        let mut count = 0;
        for _ in 0..8 {
            let allowance = random.pick(&[0, 1, 2, u64::MAX]);
            let made = pair_into(&bytes, &mut list, count, allowance).expect("paired");
            assert_eq!(pair_into(&other, &mut of_other, count, allowance), Ok(made));
            count += made;
            let k = random.between(0, count as i64) as u64;
            let left = take_apart_in(&bytes, &mut list, count, k).expect("taken apart");
            assert_eq!(take_apart_in(&other, &mut of_other, count, k), Ok(left));
            (count, pairs) = (left, pairs + made);
            assert_eq!(list, of_other);
            let amount = amount_so_far(&other, &of_other, count).expect("an amount");
            assert_eq!(amount_so_far(&bytes, &list, count), Ok(amount + more));
        }
        let made = pair_into(&bytes, &mut list, count, u64::MAX).expect("paired");
        assert_eq!(count + made, all.len() as u64);
    }
    assert!(pairs > 500, "{pairs} pairs");
}

/// Pairing and taking apart gives back the contracts that pairs may use.
#[test]
fn contracts_step_by_step() {
    let mut draft = example();
    draft.positions[2].blocked = 1;
    let mut half = HalfPaired::begun(account_of(&draft.bytes()));
    assert_eq!(half.contracts_left, [10, 4, 2]);
    assert_eq!(half.make(2), 2);
    assert_eq!(half.contracts_left, [4, 0, 0]);
    half.take_apart(1);
    assert_eq!(half.contracts_left, [8, 4, 0]);
    half.take_apart(1);
    assert_eq!(half, HalfPaired::begun(account_of(&draft.bytes())));
}

/// "Only flags of that series and its PV are written": bytes 5 to 7 stay.
#[test]
fn a_day_leaves_the_number_alone() {
    let row = held(3000, 100_000).with_barrier(UP_AND_OUT, 3500, 9);
    let before =
        [row.with_blocked(66_051), row.with_blocked(100_000), held(3000, 9).with_blocked(9)];
    let mut bytes = of_calls(&before);
    let day = Day { series: 0, high: 3500, low: 2900, close: 3100 };
    assert_eq!(apply_day(&mut bytes, &day), Ok(()));
    let after = [before[0].knocked_out(), before[1].knocked_out(), before[2]];
    assert!(bytes == file(SeriesDraft { pv: 3100, ..SeriesDraft::checked(CALL) }, &after));
    // A file that is refused is refused here too, and stays.
    let mut wrong = of_calls(&[before[2].with_blocked(10)]);
    let kept = wrong.clone();
    assert_eq!(apply_day(&mut wrong, &day), Err(Refusal { number: 8, row: 0 }));
    assert!(wrong == kept && before.iter().all(|row| row.side == HELD));
}
