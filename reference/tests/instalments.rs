//! Pairing in instalments (document 02 [7]): pairs, amounts between, refusals.

mod example_lines;

use example_lines::{list_with, FIRST, LEFT, NEEDED, SECOND, UNTOUCHED};
use reference::account::Account;
use reference::draft::{example, file, held, written, Draft, SeriesDraft, CALL, PUT};
use reference::instalments::{amount_so_far, pair_into, take_apart_in, HalfPaired};
use reference::lines::{margin, margin_into, pair_entry, premiums, Entry};
use reference::random::Random;
use reference::reader::{read_account, Refusal};
use reference::sample::{limited_alike, sample_account, Shape};

const SMALL: Shape = Shape {
    series: (1, 3),
    positions: (0, 12),
    pv: (2, 60),
    quantity: (1, 9),
    m: (1, 3),
    fb_above_one: true,
};

/// The refusal of all calls with this count, whatever the allowance or k; the
/// list stays.
fn refusal(bytes: &[u8], list: &[Entry], count: u64) -> (i64, usize) {
    let mut lent = list.to_vec();
    let refusal = amount_so_far(bytes, list, count).expect_err("refused");
    for allowance in [0, 1, 2, 256, 1 << 32, u64::MAX - count, u64::MAX] {
        assert_eq!(pair_into(bytes, &mut lent, count, allowance), Err(refusal), "{allowance}");
        assert_eq!(take_apart_in(bytes, &mut lent, count, allowance), Err(refusal), "{allowance}");
        assert_eq!(lent, list);
    }
    let Refusal { number, row } = refusal;
    (number, row)
}

/// The account's amount after each number of pairs, made one by one.
fn amounts(bytes: &[u8]) -> Vec<i64> {
    let rows = read_account(bytes).expect("accepted").positions.len();
    let mut list = vec![UNTOUCHED; 2 * rows];
    let mut amounts = Vec::new();
    for count in 0.. {
        amounts.push(amount_so_far(bytes, &list, count).expect("an amount"));
        if pair_into(bytes, &mut list, count, 1) == Ok(0) {
            break;
        }
    }
    amounts
}

fn random_files(seed: u64, count: usize) -> Vec<(Vec<u8>, Account)> {
    let mut random = Random::new(seed);
    let mut draw = || {
        let draft = sample_account(&mut random, &SMALL);
        let bytes = limited_alike(&mut random, draft).bytes();
        let account = read_account(&bytes).expect("accepted");
        (bytes, account)
    };
    (0..count).map(|_| draw()).collect()
}

/// The written row alone is 10 × 500 × 5 centavos, the premium 20 × 5 × 3.
/// The first pair needs nothing and leaves 7 contracts, the second 150 × 5 × 4
/// and leaves 3.
#[test]
fn the_documents_example() {
    let bytes = example().bytes();
    assert_eq!(amounts(&bytes), [25_000 + 300, 17_500 + 300, 7_500 + 3_000 + 300]);
    let mut list = [UNTOUCHED; NEEDED + 2];
    for (count, made, lines) in [
        (0, 1, &[FIRST][..]),
        (1, 1, &[FIRST, SECOND]),
        // No left line is written, not even when no pair is allowed any more.
        (2, 0, &[FIRST, SECOND]),
    ] {
        assert_eq!(pair_into(&bytes, &mut list[..NEEDED], count, 1), Ok(made));
        assert_eq!(list[..NEEDED], list_with(lines));
        assert_eq!(list[NEEDED..], [UNTOUCHED; 2]);
    }
}

#[test]
fn an_allowance_of_zero_makes_none() {
    let bytes = example().bytes();
    let mut list = list_with(&[FIRST, SECOND]);
    for count in 0..=2 {
        assert_eq!(pair_into(&bytes, &mut list, count, 0), Ok(0));
        assert_eq!(list, list_with(&[FIRST, SECOND]));
    }
}

/// Exactly the rest, one more, and numbers whose low bits are 0 or 1.
#[test]
fn allowances_up_to_the_largest_number() {
    let bytes = example().bytes();
    for (count, rest) in [(0, 2), (1, 1), (2, 0)] {
        for allowance in [2, 3, 256, 1 << 32, (1 << 32) + 1, 1 << 63, u64::MAX] {
            let mut list = list_with(&[FIRST, SECOND][..count as usize]);
            assert_eq!(pair_into(&bytes, &mut list, count, allowance), Ok(rest));
            assert_eq!(list, list_with(&[FIRST, SECOND]));
        }
    }
}

/// Begun with no pair lines: "the pairs after it are the first ones of the full
/// pairing, as many as the allowances add up to or all."
#[test]
fn every_list_of_allowances() {
    let mut random = Random::new(11);
    let mut pairs = 0;
    for (bytes, account) in random_files(1, 600) {
        let all = margin(&account).pairs;
        pairs += all.len();
        let mut list: Vec<Entry> = vec![UNTOUCHED; 2 * account.positions.len() + 1];
        let (mut count, mut sum) = (0, 0u64);
        for _ in 0..6 {
            let largest = u64::MAX;
            let allowance = random.pick(&[0, 1, 1, 1, 2, 3, largest]);
            count += pair_into(&bytes, &mut list, count, allowance).expect("paired");
            sum = sum.saturating_add(allowance);
            assert_eq!(count, sum.min(all.len() as u64));
            for (at, entry) in list.iter().enumerate() {
                let made = at < count as usize;
                assert_eq!(*entry, if made { pair_entry(&all[at]) } else { UNTOUCHED });
            }
        }
    }
    assert!(pairs > 300, "{pairs} pairs");
}

/// All splits of the pairs of one account: each of 2^6 ways to part 7 pairs.
#[test]
fn every_split_of_seven_pairs() {
    let mut rows = vec![written(3000, 50)];
    rows.extend((1..=7).map(|number| held(3000 + 10 * (number * 3 % 7), number)));
    let bytes = file(SeriesDraft::checked(CALL), &rows);
    let mut at_once = [UNTOUCHED; 16];
    assert_eq!(pair_into(&bytes, &mut at_once, 0, 7), Ok(7));
    for split in 0u64..1 << 6 {
        let (mut list, mut count, mut allowance) = ([UNTOUCHED; 16], 0, 1);
        for bit in 0..7 {
            if bit == 6 || split >> bit & 1 == 1 {
                assert_eq!(pair_into(&bytes, &mut list, count, allowance), Ok(allowance));
                count += allowance;
                allowance = 0;
            }
            allowance += 1;
        }
        assert_eq!(list, at_once, "{split}");
    }
}

/// After all pairs the amount is the total, and the lines are those of the
/// margin.
#[test]
fn the_last_amount_is_the_total() {
    for (bytes, account) in random_files(2, 600) {
        let mut list = vec![UNTOUCHED; 2 * account.positions.len()];
        let mut of_margin = list.clone();
        let (_, total) = margin_into(&bytes, &mut of_margin).expect("accepted");
        let pairs = pair_into(&bytes, &mut list, 0, u64::MAX).expect("paired");
        assert_eq!(amount_so_far(&bytes, &list, pairs), Ok(total));
        assert_eq!(list[..pairs as usize], of_margin[..pairs as usize]);
        assert_eq!(amounts(&bytes).last(), Some(&total));
        // With the left lines behind them the pairs are still the first ones.
        assert_eq!(amount_so_far(&bytes, &of_margin, pairs), Ok(total));
        assert_eq!(pair_into(&bytes, &mut of_margin.clone(), pairs, 1), Ok(0));
    }
}

/// The next amount is at most 100 centavos above, and none is below what the
/// premiums are.
#[test]
fn amounts_between() {
    let mut raised = 0;
    for (bytes, _) in random_files(3, 600) {
        let amounts = amounts(&bytes);
        for both in amounts.windows(2) {
            assert!(both[1] <= both[0] + 100);
            raised += usize::from(both[1] > both[0]);
        }
        let premiums = premiums(&bytes).expect("accepted");
        assert!(amounts.iter().all(|amount| *amount >= premiums && (amount - premiums) % 100 == 0));
    }
    assert!(raised > 5, "{raised} raised");
}

/// Each pair and each remainder is rounded up to a real by itself.
#[test]
fn a_pair_that_raises_the_amount() {
    for (type_byte, strike) in [(CALL, 11), (PUT, 9)] {
        let series = SeriesDraft::at_ten(type_byte);
        let bytes = file(series, &[written(10, 2), held(strike, 1).with_premium(3)]);
        assert_eq!(amounts(&bytes), [100 + 3, 100 + 100 + 3]);
    }
}

/// Premiums of all held rows from the first amount on; held remainders are 0.
#[test]
fn premiums_and_held_remainders() {
    let series = SeriesDraft::checked(CALL);
    let rows = [written(3000, 2), held(3000, 5).with_premium(3), held(3100, 4).with_premium(1)];
    assert_eq!(amounts(&file(series, &rows)), [6_000 + 75 + 20, 75 + 20]);
    assert_eq!(amounts(&file(series, &rows[1..])), [75 + 20]);
    assert_eq!(amounts(&file(series, &rows[..1])), [6_000]);
}

#[test]
fn a_number_changed_in_one_of_the_lines() {
    let bytes = example().bytes();
    for (line, place) in (0..2).flat_map(|line| (0..5).map(move |place| (line, place))) {
        let right = list_with(&[FIRST, SECOND, LEFT]);
        let number = right[line][place];
        for other in [number + 1, number.wrapping_sub(1), number ^ 1 << 32, !number] {
            let mut list = right.clone();
            list[line][place] = other;
            for count in line as u64 + 1..=2 {
                assert_eq!(refusal(&bytes, &list, count), (18, 0), "{line} {place} {other}");
            }
            // Below it the line is not looked at, and it is made anew.
            assert_eq!(pair_into(&bytes, &mut list, line as u64, 2), Ok(2 - line as u64));
            assert_eq!(list, right);
        }
    }
}

#[test]
fn other_lines() {
    let bytes = example().bytes();
    for list in [
        [SECOND, FIRST, LEFT],
        [FIRST, FIRST, LEFT],
        [SECOND, SECOND, LEFT],
        [FIRST, LEFT, SECOND],
        [LEFT, FIRST, SECOND],
        [FIRST, [1, 1, 0, 4, 3000], LEFT],
        [FIRST, [0; 5], LEFT],
        [UNTOUCHED, FIRST, SECOND],
    ] {
        assert_eq!(refusal(&bytes, &list_with(&list), 2), (18, 0));
    }
}

/// The left line, a pair line once more, and what nobody wrote.
#[test]
fn a_count_above_the_pairs() {
    let bytes = example().bytes();
    for third in [LEFT, SECOND, UNTOUCHED, [0; 5]] {
        let list = [FIRST, SECOND, third, third, third, third, third, third];
        assert!(amount_so_far(&bytes, &list, 2).is_ok());
        for count in [3, 4, 6, 7, 8, 9, 256, 257, 1 << 32, (1 << 32) + 2, 1 << 63, u64::MAX] {
            assert_eq!(refusal(&bytes, &list, count), (18, 0), "{count}");
            assert_eq!(refusal(&bytes, &list[..NEEDED], count), (18, 0), "{count}");
        }
    }
    // One row: no pair.
    let alone = file(SeriesDraft::checked(CALL), &[written(3000, 1)]);
    for count in [1, 2, u64::MAX] {
        assert_eq!(refusal(&alone, &[[2, 0, 1, 3000, 0]; 2], count), (18, 0));
    }
}

/// The reading, then the list, then its lines.
#[test]
fn the_order_of_refusals() {
    let mut wrong = example();
    wrong.positions[2].quantity = 0;
    for count in [0, 1, 2, 3, u64::MAX] {
        for list in [&[][..], &[UNTOUCHED; 2], &list_with(&[FIRST, SECOND, LEFT])] {
            assert_eq!(refusal(&wrong.bytes(), list, count), (8, 2));
            assert_eq!(refusal(&[], list, count), (1, 0));
        }
        let right = list_with(&[FIRST, SECOND, LEFT]);
        for room in 0..NEEDED {
            for list in [&right[..room], &[UNTOUCHED; NEEDED][..room]] {
                assert_eq!(refusal(&example().bytes(), list, count), (12, 0), "room {room}");
            }
        }
    }
    assert_eq!(refusal(&example().bytes(), &[UNTOUCHED; NEEDED], 1), (18, 0));
}

#[test]
fn an_account_without_positions() {
    for series in [1, 32] {
        let bytes = Draft::new(vec![SeriesDraft::checked(PUT); series], vec![]).bytes();
        for list in [&[][..], &[UNTOUCHED; 4]] {
            let mut lent = list.to_vec();
            for allowance in [0, 1, u64::MAX] {
                assert_eq!(pair_into(&bytes, &mut lent, 0, allowance), Ok(0));
                assert_eq!(lent, list);
            }
            assert_eq!(amount_so_far(&bytes, list, 0), Ok(0));
            for count in [1, 4, 5, 1 << 32, u64::MAX] {
                assert_eq!(refusal(&bytes, list, count), (18, 0));
            }
        }
    }
}

/// Contracts and pairs of an account at each step.
#[test]
fn half_paired_step_by_step() {
    let mut half = HalfPaired::begun(read_account(&example().bytes()).expect("accepted"));
    let mut found = vec![(half.contracts_left.clone(), half.amount())];
    while half.make(1) == 1 {
        found.push((half.contracts_left.clone(), half.amount()));
    }
    let expected = [(vec![10, 4, 3], 25_300), (vec![7, 4, 0], 17_800), (vec![3, 0, 0], 10_800)];
    assert_eq!(found, expected);
    assert_eq!(half.make(u64::MAX), 0);
}
