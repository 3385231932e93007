//! Taking pairs apart (document 02 [8]): entries, counts, contracts, refusals,
//! and pairing again.

mod example_lines;

use example_lines::{list_with, FIRST, LEFT, NEEDED, SECOND, UNTOUCHED};
use reference::draft::{example, file, held, written, Draft, SeriesDraft, CALL, PUT};
use reference::instalments::{amount_so_far, pair_into, take_apart_in, HalfPaired};
use reference::lines::{margin, pair_entry, Entry};
use reference::random::Random;
use reference::reader::{read_account, Refusal};
use reference::sample::{limited_alike, sample_account, some_knocked_out, Shape};

const ZEROS: Entry = [0; 5];

const SMALL: Shape = Shape {
    series: (1, 2),
    positions: (0, 20),
    pv: (2, 60),
    quantity: (1, 9),
    m: (1, 3),
    fb_above_one: true,
};

fn random_drafts(seed: u64, count: usize) -> Vec<Draft> {
    let mut random = Random::new(seed);
    let mut draw = || {
        let draft = sample_account(&mut random, &SMALL);
        let limited = limited_alike(&mut random, draft);
        some_knocked_out(&mut random, limited)
    };
    (0..count).map(|_| draw()).collect()
}

/// The account with so many pairs made.
fn half_paired(bytes: &[u8], count: u64) -> HalfPaired {
    let mut half = HalfPaired::begun(read_account(bytes).expect("accepted"));
    assert_eq!(half.make(count), count);
    half
}

/// The lines of all pairs.
fn all_lines(bytes: &[u8]) -> Vec<Entry> {
    let account = read_account(bytes).expect("accepted");
    margin(&account).pairs.iter().map(pair_entry).collect()
}

/// The refusal, which leaves the list as it was.
fn refusal(bytes: &[u8], list: &[Entry], count: u64, k: u64) -> (i64, usize) {
    let mut lent = list.to_vec();
    let Refusal { number, row } = take_apart_in(bytes, &mut lent, count, k).expect_err("refused");
    assert_eq!(lent, list);
    (number, row)
}

#[test]
fn the_documents_example() {
    let bytes = example().bytes();
    for (count, k, after) in [
        (2, 0, [FIRST, SECOND, LEFT]),
        (2, 1, [FIRST, ZEROS, LEFT]),
        (2, 2, [ZEROS, ZEROS, LEFT]),
        // Only the first line is counted, and the second stays.
        (1, 0, [FIRST, SECOND, LEFT]),
        (1, 1, [ZEROS, SECOND, LEFT]),
        (0, 0, [FIRST, SECOND, LEFT]),
    ] {
        let mut list = list_with(&[FIRST, SECOND, LEFT]);
        assert_eq!(take_apart_in(&bytes, &mut list, count, k), Ok(count - k));
        assert_eq!(list, list_with(&after), "{k} of {count}");
    }
}

/// Entries before the removed ones and after the count, whatever they hold.
#[test]
fn other_entries_stay() {
    let mut rows = vec![written(3000, 50)];
    rows.extend((1..=7).map(|number| held(3000 + 10 * (number * 3 % 7), number)));
    let bytes = file(SeriesDraft::checked(CALL), &rows);
    let lines = all_lines(&bytes);
    assert_eq!(lines.len(), 7);
    for behind in [UNTOUCHED, ZEROS, LEFT, lines[6], [u64::MAX; 5]] {
        for (count, k) in (0..=7).flat_map(|count| (0..=count).map(move |k| (count, k))) {
            let before = [&lines[..count], &vec![behind; 19 - count]].concat();
            let mut list = before.clone();
            let left = take_apart_in(&bytes, &mut list[..17], count as u64, k as u64);
            assert_eq!(left, Ok((count - k) as u64));
            for (at, entry) in list.iter().enumerate() {
                let removed = (count - k..count).contains(&at);
                assert_eq!(*entry, if removed { ZEROS } else { before[at] }, "{k} of {count}");
            }
        }
    }
}

#[test]
fn k_above_the_count() {
    let bytes = example().bytes();
    for count in 0..=2 {
        let mut list = list_with(&[FIRST, SECOND, LEFT]);
        let mut ks = vec![count + 1, count + 2, 256, 1 << 63, u64::MAX - 1, u64::MAX];
        ks.extend([0, 1, count].map(|low| low + (1 << 32)));
        for k in ks {
            assert_eq!(refusal(&bytes, &list, count, k), (19, 0), "{k} of {count}");
        }
        assert_eq!(take_apart_in(&bytes, &mut list, count, count), Ok(0));
    }
}

/// The reading, then the list, then its lines, then k.
#[test]
fn the_order_of_refusals() {
    let mut wrong = example();
    wrong.positions[2].quantity = 0;
    let right = list_with(&[FIRST, SECOND, LEFT]);
    for k in [0, 1, 2, 3, 4, 1 << 32, u64::MAX] {
        for count in [0, 1, 2, 3, u64::MAX] {
            for list in [&[][..], &[UNTOUCHED; 2], &right] {
                assert_eq!(refusal(&wrong.bytes(), list, count, k), (8, 2));
                assert_eq!(refusal(&[], list, count, k), (1, 0));
            }
            for room in 0..NEEDED {
                for list in [&right[..room], &[UNTOUCHED; NEEDED][..room]] {
                    assert_eq!(refusal(&example().bytes(), list, count, k), (12, 0));
                }
            }
        }
        for (lines, count) in [
            ([FIRST, UNTOUCHED, LEFT], 2),
            ([FIRST, ZEROS, LEFT], 2),
            ([SECOND, FIRST, LEFT], 1),
            ([FIRST, SECOND, LEFT], 3),
            ([FIRST, SECOND, LEFT], (1 << 32) + 2),
            ([FIRST, SECOND, LEFT], u64::MAX),
        ] {
            let list = list_with(&lines);
            assert_eq!(refusal(&example().bytes(), &list, count, k), (18, 0), "{k} of {count}");
        }
    }
    assert_eq!(refusal(&example().bytes(), &right, 2, 3), (19, 0));
}

#[test]
fn an_account_without_positions() {
    for series in [1, 32] {
        let bytes = Draft::new(vec![SeriesDraft::checked(PUT); series], vec![]).bytes();
        for list in [&[][..], &[UNTOUCHED; 4]] {
            let mut lent = list.to_vec();
            assert_eq!(take_apart_in(&bytes, &mut lent, 0, 0), Ok(0));
            assert_eq!(lent, list);
            for k in [1, 4, 1 << 32, u64::MAX] {
                assert_eq!(refusal(&bytes, list, 0, k), (19, 0));
                assert_eq!(refusal(&bytes, list, k, k), (18, 0));
            }
        }
    }
}

#[test]
fn contracts_step_by_step() {
    let mut half = half_paired(&example().bytes(), 2);
    let mut found = vec![(half.contracts_left.clone(), half.amount())];
    for _ in 0..2 {
        half.take_apart(1);
        found.push((half.contracts_left.clone(), half.amount()));
    }
    let expected = [(vec![3, 0, 0], 10_800), (vec![7, 4, 0], 17_800), (vec![10, 4, 3], 25_300)];
    assert_eq!(found, expected);
    assert_eq!(half, half_paired(&example().bytes(), 0));
}

/// "Pairing with an allowance of k, then taking apart as many as were made,
/// gives back the former count and the former contracts left in every row;
/// pairing again writes the same lines."
#[test]
fn pairing_and_taking_apart() {
    let mut made_and_removed = 0;
    for draft in random_drafts(1, 500) {
        let (bytes, rows) = (draft.bytes(), draft.positions.len());
        let lines = all_lines(&bytes);
        let all = lines.len() as u64;
        for count in 0..=all {
            for k in (0..=all - count + 1).chain([u64::MAX]) {
                let mut list = vec![UNTOUCHED; 2 * rows + 1];
                list[..count as usize].copy_from_slice(&lines[..count as usize]);
                let former = list.clone();
                let made = pair_into(&bytes, &mut list, count, k).expect("paired");
                let paired = list.clone();
                assert_eq!(take_apart_in(&bytes, &mut list, count + made, made), Ok(count));
                let (first, end) = (count as usize, (count + made) as usize);
                assert_eq!(list[..first], former[..first]);
                assert!(list[first..end].iter().all(|entry| *entry == ZEROS));
                assert_eq!(list[end..], former[end..]);
                assert_eq!(pair_into(&bytes, &mut list, count, k), Ok(made));
                assert_eq!(list, paired);
                made_and_removed += made;

                let mut half = half_paired(&bytes, count);
                let former = half.clone();
                assert_eq!(half.make(k), made);
                half.take_apart(made);
                assert_eq!(half, former);
            }
        }
    }
    assert!(made_and_removed > 2_000, "{made_and_removed} pairs");
}

/// Some at once and then others, or all at once.
#[test]
fn one_by_one_and_at_once() {
    for draft in random_drafts(2, 300) {
        let bytes = draft.bytes();
        let lines = all_lines(&bytes);
        let mut one_by_one = [&lines[..], &[UNTOUCHED]].concat();
        one_by_one.resize(2 * draft.positions.len() + 1, UNTOUCHED);
        let all = one_by_one.clone();
        for k in 1..=lines.len() as u64 {
            let count = lines.len() as u64;
            assert_eq!(take_apart_in(&bytes, &mut one_by_one, count - k + 1, 1), Ok(count - k));
            let mut at_once = all.clone();
            assert_eq!(take_apart_in(&bytes, &mut at_once, count, k), Ok(count - k));
            assert_eq!(at_once, one_by_one);
        }
    }
}

/// Calls of both sorts by chance: the first lines are those of the full pairing
/// and the amount is that of as many pairs, as if none had ever been taken
/// apart.
#[test]
fn pairs_made_and_taken_apart_by_chance() {
    let mut random = Random::new(21);
    let mut removed = 0;
    for draft in random_drafts(3, 400) {
        let bytes = draft.bytes();
        let lines = all_lines(&bytes);
        let mut list = vec![UNTOUCHED; 2 * draft.positions.len()];
        let (mut count, mut most) = (0, 0);
        for _ in 0..12 {
            if random.chance(50) {
                let allowance = random.pick(&[0, 1, 2, 3, u64::MAX]);
                count += pair_into(&bytes, &mut list, count, allowance).expect("paired");
            } else {
                let k = random.between(0, count as i64) as u64;
                count = take_apart_in(&bytes, &mut list, count, k).expect("taken apart");
                removed += k;
            }
            most = most.max(count);
            let (first, end) = (count as usize, most as usize);
            assert_eq!(list[..first], lines[..first]);
            assert!(list[first..end].iter().all(|entry| *entry == ZEROS));
            assert!(list[end..].iter().all(|entry| *entry == UNTOUCHED));
            let amount = half_paired(&bytes, count).amount();
            assert_eq!(amount_so_far(&bytes, &list, count), Ok(amount));
        }
    }
    assert!(removed > 500, "{removed} pairs");
}

/// A client sells some contracts of a held row, but not all. The pairs from the
/// first that names the row on are taken apart; those that stay are the first
/// ones of the new file, and all that follow can be made there.
#[test]
fn a_held_option_sold_during_the_day() {
    let (mut sold, mut first_of_all, mut stayed) = (0, 0, 0);
    for draft in random_drafts(4, 600) {
        let bytes = draft.bytes();
        let pairs = margin(&read_account(&bytes).expect("accepted")).pairs;
        for row in 0..draft.positions.len() {
            let Some(first) = pairs.iter().position(|pair| pair.held == row) else { continue };
            if draft.positions[row].quantity == 1 {
                continue;
            }
            let mut list = vec![UNTOUCHED; 2 * draft.positions.len()];
            let count = pair_into(&bytes, &mut list, 0, u64::MAX).expect("paired");
            let k = count - first as u64;
            let left = take_apart_in(&bytes, &mut list, count, k).expect("taken apart");
            let mut after = draft.clone();
            after.positions[row].quantity -= 1 + row as u32 % (after.positions[row].quantity - 1);
            let after = after.bytes();
            let made = pair_into(&after, &mut list, left, u64::MAX).expect("paired");
            let lines = all_lines(&after);
            assert_eq!(list[..(left + made) as usize], lines);
            (sold, stayed) = (sold + 1, stayed + first);
            first_of_all += usize::from(first == 0);
        }
    }
    assert!(sold > 300 && first_of_all < sold && stayed > 100, "{sold} {first_of_all} {stayed}");
}
