//! What the brute force says of blocked contracts (document 02 [9]).

use reference::account::{Account, Barrier};
use reference::brute_force::{check, cover_promised, reference_claim, Claim};
use reference::draft::{file, held, written, PositionDraft, SeriesDraft, CALL, PUT};
use reference::lines::{margin, Left, Margin};
use reference::pairing::Pair;
use reference::random::Random;
use reference::reader::read_account;
use reference::sample::{limited_alike, sample_account, some_blocked, some_knocked_out, Shape};

#[test]
fn random_small_accounts() {
    let shape = Shape {
        series: (1, 2),
        positions: (0, 7),
        pv: (2, 60),
        quantity: (1, 5),
        m: (1, 1_000),
        fb_above_one: true,
    };
    let mut random = Random::new(9);
    let (mut pairs, mut blocked, mut both) = (0, 0, 0);
    for number in 0..1_200 {
        let mut draft = sample_account(&mut random, &shape);
        if number % 2 == 1 {
            draft = limited_alike(&mut random, draft);
            draft = some_knocked_out(&mut random, draft);
        }
        let account = read_account(&some_blocked(&mut random, draft).bytes()).expect("accepted");
        let claim = reference_claim(&account);
        if let Err(violation) = check(&account, &claim, 4) {
            panic!("{violation}\n{account:#?}\n{claim:#?}");
        }
        pairs += claim.margin.pairs.len();
        blocked += account.positions.iter().filter(|p| p.blocked > 0).count();
        let of_blocked = |pair: &&Pair| account.positions[pair.held].blocked > 0;
        both += claim.margin.pairs.iter().filter(of_blocked).count();
    }
    assert!(pairs > 200 && blocked > 1_000 && both > 50, "{pairs} {blocked} {both}");
}

/// A written row of 2 contracts at 3000 and a held one of 3, of which 2 are
/// blocked; the high price is 3600.
fn two_rows(series: SeriesDraft) -> Account {
    let rows: [PositionDraft; 2] = [written(3000, 2), held(3000, 3).with_blocked(2)];
    read_account(&file(series, &rows)).expect("accepted")
}

/// The claim that a pair takes so many contracts and needs nothing.
fn pair_of(account: &Account, quantity: i64, total: i64) -> Claim {
    let left = |row: usize, amount: i64| {
        let quantity = account.positions[row].quantity - quantity;
        Left { row, quantity, amount }
    };
    let pair = Pair { written: 0, held: 1, quantity, amount: 0 };
    let lines = [left(0, total), left(1, 0)].into_iter().filter(|l| l.quantity > 0);
    let margin = Margin { pairs: vec![pair], left: lines.collect(), premium: 0, total };
    Claim { margin, half_paired: vec![], ..reference_claim(account) }
}

/// The cover by itself: two contracts pay 6,000 centavos, and the one that is
/// not blocked brings in 3,000.
#[test]
fn a_blocked_contract_brings_nothing_in() {
    let account = two_rows(SeriesDraft::checked(CALL));
    assert_eq!(margin(&account).total, 3_000);
    assert!(check(&account, &pair_of(&account, 1, 3_000), 4).is_ok());
    for total in [0, 2_999] {
        let violation = check(&account, &pair_of(&account, 2, total), 4).unwrap_err();
        assert!(violation.starts_with("the cover"), "{violation}");
    }
    // Enough for the cover, and still a contract that may not serve.
    let violation = check(&account, &pair_of(&account, 2, 3_000), 4).unwrap_err();
    assert!(violation.starts_with("blocked: 2 of 3 contracts of row 1"), "{violation}");
}

/// Also where the cover is not promised.
#[test]
fn a_blocked_contract_in_a_pair_is_found_with_any_factor() {
    let account = two_rows(SeriesDraft { fb: 1_000_001, ..SeriesDraft::checked(CALL) });
    assert!(check(&account, &pair_of(&account, 1, 3_000), 4).is_ok());
    let violation = check(&account, &pair_of(&account, 2, 0), 4).unwrap_err();
    assert!(violation.starts_with("blocked"), "{violation}");
    // And after a number of pairs below all.
    let mut claim = reference_claim(&account);
    claim.half_paired = vec![pair_of(&account, 2, 3_000).margin];
    assert!(check(&account, &claim, 4).unwrap_err().starts_with("blocked"));
}

/// With fb above 1,000,000, where the cover is promised and where it is not, and
/// before it is looked at (document 02 [11]).
#[test]
fn a_blocked_contract_in_a_pair_is_found_at_long_expiries() {
    let with_long_expiry =
        |type_byte: u8| SeriesDraft { fb: 1_000_001, ..SeriesDraft::checked(type_byte) };
    let of_calls = two_rows(with_long_expiry(CALL));
    let mut of_puts = two_rows(with_long_expiry(PUT));
    for position in &mut of_puts.positions {
        position.barrier = Barrier::UpAndIn(3500);
    }
    for (account, promised) in [(of_calls, true), (of_puts, false)] {
        assert_eq!(cover_promised(&account), promised);
        assert!(check(&account, &pair_of(&account, 1, 3_000), 4).is_ok());
        for total in [3_000, 0] {
            let violation = check(&account, &pair_of(&account, 2, total), 4).unwrap_err();
            assert!(violation.starts_with("blocked"), "{violation}");
        }
        // Of the pair that is allowed the cover is looked at.
        let found = check(&account, &pair_of(&account, 1, 0), 4).err();
        assert_eq!(found.is_some_and(|words| words.starts_with("the cover")), promised);
        // And after a number of pairs below all.
        let mut claim = reference_claim(&account);
        claim.half_paired = vec![pair_of(&account, 2, 3_000).margin];
        assert!(check(&account, &claim, 4).unwrap_err().starts_with("blocked"));
    }
}

/// Blocked contracts are no contracts left for a pair, and others are.
#[test]
fn pairs_left_unmade() {
    let account = two_rows(SeriesDraft::checked(CALL));
    let none = |quantity: i64| {
        let left = [(0, 2, 6_000), (1, quantity, 0)];
        let left = left.map(|(row, quantity, amount)| Left { row, quantity, amount }).to_vec();
        Margin { pairs: vec![], left, premium: 0, total: 6_000 }
    };
    let claim = Claim { margin: none(3), ..reference_claim(&account) };
    assert!(check(&account, &claim, 4).unwrap_err().starts_with("pairs left unmade"));
    let mut wholly = account.clone();
    wholly.positions[1].blocked = 3;
    assert!(check(&wholly, &Claim { half_paired: vec![], ..claim }, 4).is_ok());
}

/// The left line of a held row has Q less what its pairs took, no less.
#[test]
fn blocked_contracts_missing_in_a_left_line_are_found() {
    let account = two_rows(SeriesDraft::checked(CALL));
    for quantity in [None, Some(1)] {
        let mut claim = reference_claim(&account);
        assert_eq!(claim.margin.left[1].quantity, 2);
        match quantity {
            None => drop(claim.margin.left.pop()),
            Some(quantity) => claim.margin.left[1].quantity = quantity,
        }
        assert!(check(&account, &claim, 4).unwrap_err().starts_with("contracts: row 1"));
    }
}
