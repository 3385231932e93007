//! Contracts blocked as collateral (document 02 [9]), in instalments and taken
//! apart.

use super::accounts::Known;
use super::lists::Lent;
use super::{above_count, amount, apart, made, refused, refused_at, Asked, Cases};
use crate::draft::{Draft, PositionDraft, CALL};
use crate::lines::Entry;
use crate::vectors::rows::{held, one_series, written};

/// The written row's unit margin is 600 ticks, 3,000 centavos a contract. Of the
/// nearest row all are blocked; of the next two 3 and 1 contracts may be used,
/// 10 ticks of three are 150 centavos, rounded up to 200, and 20 of one 100. The
/// premium is over all 5 contracts, 175 centavos.
fn partly() -> Known {
    let rows = vec![
        written(0, 3000, 10),
        held(0, 3000, 4).with_blocked(4),
        held(0, 3020, 4).with_blocked(3),
        held(0, 3010, 5).with_blocked(2).with_premium(7),
    ];
    Known {
        draft: one_series(CALL, rows),
        pairs: vec![[1, 0, 3, 3, 200], [1, 0, 2, 1, 100]],
        left: vec![[2, 0, 6, 18_000, 0], [2, 1, 4, 0, 0], [2, 2, 3, 0, 0], [2, 3, 2, 0, 0]],
        amounts: vec![30_175, 21_375, 18_475],
    }
}

/// The written rows' unit margins are 600 and 590 ticks. Both use the first held
/// row, which is then spent with its two blocked contracts left; the second
/// takes the one of the last row that is free. The premium is over all 9
/// contracts of that, 45 centavos.
fn spent() -> Known {
    let rows = vec![
        written(0, 3000, 3),
        written(0, 3010, 2),
        held(0, 3000, 6).with_blocked(2),
        held(0, 3100, 9).with_blocked(8).with_premium(1),
    ];
    Known {
        draft: one_series(CALL, rows),
        pairs: vec![[1, 0, 2, 3, 0], [1, 1, 2, 1, 0], [1, 1, 3, 1, 500]],
        left: vec![[2, 2, 2, 0, 0], [2, 3, 8, 0, 0]],
        amounts: vec![9_000 + 5_900 + 45, 5_900 + 45, 3_000 + 45, 545],
    }
}

/// Each with the first two lines that it would have with nothing blocked.
fn accounts() -> [(&'static str, Known, [Entry; 2]); 2] {
    [
        ("blocked in part", partly(), [[1, 0, 1, 4, 0], [1, 0, 3, 5, 300]]),
        ("spent for pairing", spent(), [[1, 0, 2, 3, 0], [1, 1, 2, 2, 0]]),
    ]
}

pub fn add(cases: &mut Cases) {
    cases.begin("blocked");
    for (name, known, of_none) in accounts() {
        let room = Lent::needed(&known.draft);
        let asked = pair_by_pair(&known);
        cases.add(format!("{name}, pair by pair"), &known.draft, Lent::marked(room), asked);
        for count in 0..=known.pairs.len() as u64 {
            for k in 0..=count {
                let lent = Lent::with(&known.lines(), room);
                let asked = taken_apart(&known, count, k);
                cases.add(format!("{name}, {k} of {count}"), &known.draft, lent, asked);
            }
        }
        as_if_none_were_blocked(cases, name, &known, &of_none);
    }
    wholly_blocked(cases);
    faults(cases);
    most_lines(cases);
}

/// The amount before each pair, and after the last.
fn pair_by_pair(known: &Known) -> Vec<Asked> {
    let all = known.pairs.len() as u64;
    let mut asked = vec![];
    for count in 0..all {
        asked.extend([amount(count, known.amounts[count as usize]), made(count, 1, 1)]);
    }
    asked.extend([amount(all, known.amounts[all as usize]), made(all, u64::MAX, 0)]);
    asked
}

fn taken_apart(known: &Known, count: u64, k: u64) -> Vec<Asked> {
    let left = count - k;
    vec![
        apart(count, k),
        amount(left, known.amounts[left as usize]),
        made(left, k, k),
        above_count(count, count + 1),
    ]
}

/// The lines that the account has with nothing blocked, and its left lines
/// counted as pairs, are not its first pairs.
fn as_if_none_were_blocked(cases: &mut Cases, name: &str, known: &Known, of_none: &[Entry]) {
    let mut draft = known.draft.clone();
    draft.positions.iter_mut().for_each(|row| row.blocked = 0);
    let room = Lent::needed(&draft);
    cases.add(format!("{name}, none blocked"), &draft, Lent::marked(room), vec![made(0, 1, 1)]);
    let lent = Lent::with(of_none, room);
    cases.add(format!("{name}, lines of none blocked"), &known.draft, lent, refused(2, 1, 18));
    let pairs = known.pairs.len();
    let asked = (pairs + 1..=known.lines().len()).flat_map(|count| refused(count as u64, 1, 18));
    let lent = Lent::with(&known.lines(), room);
    cases.add(format!("{name}, left lines counted"), &known.draft, lent, asked.collect());
}

/// No pair at all, with premiums over Q.
fn wholly_blocked(cases: &mut Cases) {
    let row = held(0, 3000, 5).with_blocked(5).with_premium(3);
    let rows = vec![written(0, 3000, 2), row, row, held(0, 3000, 1).with_blocked(1)];
    let draft = one_series(CALL, rows);
    let mut asked = vec![amount(0, 6_150), made(0, u64::MAX, 0), apart(0, 0), above_count(0, 1)];
    asked.extend(refused(1, 1, 18));
    let line = [1, 0, 1, 2, 0];
    let room = Lent::needed(&draft);
    cases.add("every held row wholly blocked", &draft, Lent::with(&[line], room), asked);
}

/// The reading's refusals, also where the list is too short.
fn faults(cases: &mut Cases) {
    for (what, row, blocked, number) in [
        ("above Q", 3, 6, 8),
        ("far above Q", 1, 0xFF_FFFF, 8),
        ("on a written row", 0, 1, 7),
        ("on a written row, byte 7 alone", 0, 1 << 16, 7),
    ] {
        let mut draft = partly().draft;
        draft.positions[row].blocked = blocked;
        for room in [0, 8] {
            let asked = refused_at(1, 1, number, row);
            cases.add(format!("{what}, room {room}"), &draft, Lent::marked(room), asked);
        }
    }
}

/// One written row against so many held ones, each with a contract blocked: all
/// of them make a pair and have a left line.
fn one_against(held_rows: u32) -> Draft {
    let of = |number: u32| -> PositionDraft {
        held(0, 3001 + number, 2 + number % 7).with_blocked(1).with_premium(number % 3)
    };
    let rows = std::iter::once(written(0, 3000, 100_000)).chain((0..held_rows).map(of));
    one_series(CALL, rows.collect())
}

/// 511 lines in the margin, of which 255 are pairs.
fn most_lines(cases: &mut Cases) {
    let asked =
        vec![made(0, 200, 200), made(200, u64::MAX, 55), apart(255, 56), made(199, u64::MAX, 56)];
    cases.add("255 pairs of 511 lines", &one_against(255), Lent::marked(512), asked);
    for room in [511, 256] {
        let asked = refused(0, 1, 12);
        cases.add(format!("room {room} of 512"), &one_against(255), Lent::marked(room), asked);
    }
}
