//! What the vectors, the days and the calls for instalments hold for blocked
//! contracts (document 02 [9]).

use std::collections::BTreeSet;

use reference::account::{Account, Barrier, Limiter, Position, Side};
use reference::day::apply_day;
use reference::day_vectors::all_days;
use reference::instalment_cases::Call;
use reference::instalment_vectors::all_instalments;
use reference::lines::{margin, Margin};
use reference::pairing::{allowed_spread, next_pair};
use reference::reader::{read_account, Refusal};
use reference::vectors::{all_cases, Case, Expect};

/// The accepted accounts with blocked contracts, each with its margin.
fn blocked_accounts() -> Vec<(Account, Margin)> {
    let accounts = all_cases().into_iter().filter_map(|case| read_account(&case.bytes).ok());
    let blocked = |account: &Account| account.positions.iter().any(|p| p.blocked > 0);
    accounts.filter(blocked).map(|account| (account.clone(), margin(&account))).collect()
}

/// Numbers of held rows: none, one, all but one and all; each byte alone and all
/// three.
#[test]
fn numbers_of_every_sort() {
    let mut numbers = BTreeSet::new();
    let mut sorts = BTreeSet::new();
    for (account, _) in blocked_accounts() {
        for p in account.positions.iter().filter(|p| p.side == Side::Held) {
            numbers.insert(p.blocked);
            sorts.insert((p.blocked == 0, p.blocked == 1, p.free() == 1, p.free() == 0));
        }
    }
    for number in [1, 256, 65_536, 66_051, 99_999, 100_000] {
        assert!(numbers.contains(&number), "{number}");
    }
    for sort in [
        (true, false, false, false),
        (false, true, false, false),
        (false, false, true, false),
        (false, false, false, true),
        (false, false, false, false),
        (false, true, false, true),
    ] {
        assert!(sorts.contains(&sort), "{sort:?}");
    }
}

/// Of each file that is refused for a position row the refusal's number, the
/// row's side, Q and number blocked.
fn refused_rows() -> Vec<(i64, u8, u32, u32)> {
    let mut rows = Vec::new();
    for Case { bytes, expect, .. } in all_cases() {
        let Expect::Refused(number @ 7.., row) = expect else { continue };
        let trailer = bytes.len() - 12;
        let p = u16::from_le_bytes([bytes[trailer + 2], bytes[trailer + 3]]) as usize;
        let row = &bytes[trailer - 32 * (p - row)..][..32];
        let quantity = u32::from_le_bytes([row[8], row[9], row[10], row[11]]);
        let blocked = u32::from_le_bytes([row[5], row[6], row[7], 0]);
        rows.push((number, row[2], quantity, blocked));
    }
    rows
}

/// 8 for one more than Q, for each byte alone and for the largest number; 7 for
/// each byte of a written row, whether or not it would be 8 too; and each
/// refusal after them beside blocked contracts.
#[test]
fn refusals_of_every_sort() {
    let rows = refused_rows();
    let some = |number: i64, side: u8, what: &dyn Fn(u32, u32) -> bool| {
        rows.iter().any(|&(n, s, q, b)| (n, s) == (number, side) && what(q, b))
    };
    for quantity in [1, 10, 256, 65_536, 99_999, 100_000] {
        assert!(some(8, 0, &|q, b| q == quantity && b == q + 1), "{quantity}");
    }
    for byte in [0, 8, 16] {
        let alone = |b: u32| b != 0 && b & !(0xFF << byte) == 0;
        assert!(some(8, 0, &|q, b| b > q && alone(b)), "{byte}");
        assert!(some(7, 1, &|q, b| b <= q && alone(b)), "{byte}");
        assert!(some(7, 1, &|q, b| b > q && alone(b)), "{byte}");
    }
    assert!(some(8, 0, &|_, b| b == 0xFF_FFFF) && some(7, 1, &|_, b| b == 0xFF_FFFF));
    assert!(some(7, 0, &|q, b| b > q) && some(8, 0, &|q, b| b == q && q > 0));
    for number in [9, 10, 11] {
        assert!(some(number, 0, &|q, b| b == q), "{number}");
    }
}

/// The barrier's kind after flag 1 is applied; is there a limiter, and flag 16?
fn sort_of(position: &Position) -> (u8, bool, bool) {
    let kind = match position.terms().barrier {
        Barrier::None => 0,
        Barrier::UpAndIn(_) => 1,
        Barrier::DownAndIn(_) => 2,
        Barrier::UpAndOut(_) => 3,
        Barrier::DownAndOut(_) => 4,
    };
    (kind, position.limiter != Limiter::Absent, position.already_knocked_out)
}

/// Rows of every kind, with and without a limiter: pairs of rows blocked in
/// part, of the same option and of another; and rows with flag 16.
#[test]
fn pairs_of_every_kind() {
    let (mut pairs, mut rows) = (BTreeSet::new(), BTreeSet::new());
    for (account, margin) in blocked_accounts() {
        rows.extend(account.positions.iter().filter(|p| p.blocked > 0).map(sort_of));
        for pair in &margin.pairs {
            let [w, h] = [pair.written, pair.held].map(|row| &account.positions[row]);
            if h.blocked > 0 {
                let (kind, limited, _) = sort_of(h);
                pairs.insert((kind, limited, w.terms() == h.terms()));
            }
        }
    }
    for kind in 0..5 {
        assert!(pairs.contains(&(kind, false, true)) && pairs.contains(&(kind, true, true)));
        // Knock-ins pair only when the same.
        assert_eq!(pairs.contains(&(kind, false, false)), kind != 1 && kind != 2);
    }
    assert!(pairs.contains(&(0, true, false)));
    assert!(rows.contains(&(3, false, true)) && rows.contains(&(4, false, true)));
}

/// Choices that would be others if blocked contracts were used, at the first
/// pair and later; nearest rows wholly blocked, and rows spent for pairing.
#[test]
fn choices_of_every_sort() {
    let (mut first, mut wholly, mut spent, mut used_twice, mut with_premium) = (0, 0, 0, 0, 0);
    for (account, margin) in blocked_accounts() {
        let all: Vec<i64> = account.positions.iter().map(|p| p.quantity).collect();
        let right = margin.pairs.first().map(|pair| (pair.written, pair.held));
        let of_all = next_pair(&account, &all).map(|(written, held, _)| (written, held));
        first += usize::from(right != of_all);
        for (row, p) in account.positions.iter().enumerate().filter(|(_, p)| p.blocked > 0) {
            let own: Vec<_> = margin.pairs.iter().filter(|pair| pair.held == row).collect();
            let taken: i64 = own.iter().map(|pair| pair.quantity).sum();
            let might = |written| allowed_spread(&account, written, row).is_some();
            wholly += usize::from(p.free() == 0 && (0..all.len()).any(might));
            spent += usize::from(taken > 0 && taken == p.free());
            used_twice += usize::from(own.len() > 1);
            with_premium += usize::from(p.premium > 0);
        }
    }
    assert!(first > 40 && wholly > 100 && spent > 200, "{first} {wholly} {spent}");
    assert!(used_twice > 20 && with_premium > 100, "{used_twice} {with_premium}");
}

/// 2 × p − 1 lines for p of 1, 2, 8 and 256, and fewer with more written rows.
#[test]
fn the_most_lines() {
    let mut found = BTreeSet::new();
    for (account, margin) in blocked_accounts() {
        let p = account.positions.len();
        let lines = margin.pairs.len() + margin.left.len();
        let written = account.positions.iter().filter(|p| p.side == Side::Written).count();
        assert!(lines <= 2 * p - written.max(1));
        found.insert((p, written, lines));
    }
    for shape in [(1, 0, 1), (2, 1, 3), (8, 1, 15), (256, 1, 511), (256, 2, 510), (256, 128, 384)] {
        assert!(found.contains(&shape), "{shape:?}");
    }
    assert!(found.contains(&(256, 128, 383)));
}

/// Days of rows with blocked contracts that the day flags and that it does not;
/// and files refused for the number blocked.
#[test]
fn days() {
    let (mut flagged, mut not, mut refused) = (0, 0, BTreeSet::new());
    for case in all_days().into_iter().filter(|case| case.group == "blocked") {
        let mut bytes = case.file.clone();
        match apply_day(&mut bytes, &case.day) {
            Err(Refusal { number, row }) => drop(refused.insert((number, row > 0))),
            Ok(()) => {
                let [before, after] = [&case.file, &bytes].map(|file| read_account(file).unwrap());
                for (b, a) in before.positions.iter().zip(&after.positions) {
                    assert_eq!(a.blocked, b.blocked);
                    let changed = usize::from(a != b);
                    (flagged, not) = match b.blocked {
                        0 => (flagged, not),
                        _ => (flagged + changed, not + 1 - changed),
                    };
                }
            }
        }
    }
    assert!(flagged > 20 && not > 20, "{flagged} {not}");
    let expected = [(7, false), (7, true), (8, true), (16, false), (17, false)];
    assert_eq!(refused, expected.into_iter().collect());
}

/// Every call on accounts with blocked contracts, answered and refused with 12,
/// 18 and 19; lists with an entry for each row and one below 2 × p are 12.
#[test]
fn calls_for_instalments() {
    let (mut found, mut rooms) = (BTreeSet::new(), BTreeSet::new());
    for instalments in all_instalments() {
        let Ok(account) = read_account(&instalments.case.file) else { continue };
        let (p, room) = (account.positions.len(), instalments.case.room);
        let blocked = account.positions.iter().any(|p| p.blocked > 0);
        for (call, (answer, _)) in instalments.case.calls.iter().zip(instalments.case.answers()) {
            let number = answer.map_or_else(|refusal| refusal.number, |_| 0);
            assert_eq!(number == 12, room < 2 * p);
            let sort = match call {
                Call::Pair { .. } => 0,
                Call::Amount { .. } => 1,
                Call::Apart { .. } => 2,
            };
            found.insert((blocked, sort, number));
            rooms.extend([
                (sort, "none", room == 0 && p > 0),
                (sort, "p", room == p && p > 0),
                (sort, "2p - 1", room + 1 == 2 * p),
                (sort, "2p", room == 2 * p),
                (sort, "512", room >= 512),
            ]);
        }
    }
    for sort in 0..3 {
        for number in [0, 12, 18] {
            assert!(found.contains(&(true, sort, number)), "{sort} {number}");
        }
        for room in ["none", "p", "2p - 1", "2p", "512"] {
            assert!(rooms.contains(&(sort, room, true)), "{sort} {room}");
        }
    }
    assert!(found.contains(&(true, 2, 19)));
}
