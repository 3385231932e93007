//! Calls in whole reais (document 02 [6]): line amounts and the amounts of
//! written positions are multiples of 100 centavos, premiums are exact.

use std::collections::BTreeSet;

use reference::account::{fine, Account, OptionType, Side};
use reference::draft::{file, held, written, PositionDraft, SeriesDraft, CALL, PUT, UP_AND_OUT};
use reference::lines::{exact_of_left, exact_of_pair, margin, premiums, rows_left, Margin};
use reference::output::{amounts_output, margin_output, outputs_of};
use reference::pairing::contracts;
use reference::position::{amount, one_position, position_amount, premium_amount};
use reference::reader::read_account;
use reference::vectors::all_cases;

/// An exact multiple stays; one fine unit more goes to the next one.
#[test]
fn rounded_up_to_a_multiple_of_100() {
    let tick = fine(1);
    for (unit, expected) in [
        (0, 0),
        (1, 100),
        (tick, 100),
        (99 * tick, 100),
        (100 * tick - 1, 100),
        (100 * tick, 100),
        (100 * tick + 1, 200),
        (101 * tick, 200),
        (200 * tick - 1, 200),
        (200 * tick, 200),
        (200 * tick + 1, 300),
    ] {
        assert_eq!(amount(unit, 1, 1), expected, "{unit}");
    }
    // M and quantity before the rounding: 35 contracts of 3 centavos are 105.
    assert_eq!(amount(tick, 3, 35), 200);
    assert_eq!(amount(tick, 5, 20), 100);
    assert_eq!(amount(tick + 1, 5, 20), 200);
    assert_eq!(amount(1, 1_000, 100_000), 100);
}

/// PV 10,000,000, fa 10, PE 1, M 1,000, Q 100,000, once and 256 times.
#[test]
fn the_largest_amounts() {
    let series = SeriesDraft {
        pv: 10_000_000,
        fa: 10_000_000,
        f3: 0,
        m: 1_000,
        ..SeriesDraft::checked(CALL)
    };
    let row = written(1, 100_000);
    assert_eq!(one_position(&file(series, &[row]), 0), 9_999_999_900_000_000);
    let all = read_account(&file(series, &[row; 256])).expect("accepted");
    assert_eq!(margin(&all).total, 2_559_999_974_400_000_000);
    // The largest that is no multiple before: 9,999,897,900,021,099.999.
    let below = SeriesDraft { pv: 9_999_999, fa: 9_999_999, ..series };
    assert_eq!(one_position(&file(below, &[written(1, 99_999)]), 0), 9_999_897_900_021_100);
}

/// 7 × 5 × 3 centavos.
#[test]
fn premiums_are_exact() {
    let series = SeriesDraft::checked(CALL);
    let bought = held(3100, 3).with_premium(7);
    let alone = file(series, &[bought]);
    assert_eq!(one_position(&alone, 0), 105);
    assert_eq!(premiums(&alone), Ok(105));
    assert_eq!(margin_output(&alone), "left 0 3 0\npremium 105\ntotal 105\n");
    let paired = file(series, &[written(3100, 3), bought]);
    assert_eq!(one_position(&paired, 1), 105);
    assert_eq!(margin_output(&paired), "pair 0 1 3 0\npremium 105\ntotal 105\n");
    let twice = file(series, &[bought, written(3100, 3), bought.style(false, false)]);
    assert_eq!(premiums(&twice), Ok(210));
    assert_eq!(margin_output(&twice), "pair 1 0 3 0\nleft 2 3 0\npremium 210\ntotal 210\n");
}

/// Each pair line and each left line by itself; the total is their sum and the
/// premiums, and no multiple of 100.
#[test]
fn each_line_by_itself() {
    let rows = [
        written(10, 5),
        held(11, 1),
        held(11, 2).with_premium(1),
        written(11, 1).style(false, false),
        held(12, 1).style(false, false),
    ];
    let expected = "pair 0 1 1 100\n\
                    pair 0 2 2 100\n\
                    left 0 2 100\n\
                    left 3 1 100\n\
                    left 4 1 0\n\
                    premium 2\n\
                    total 402\n";
    assert_eq!(margin_output(&file(SeriesDraft::at_ten(CALL), &rows)), expected);
}

/// Rounding can raise the total above what the written row is alone.
#[test]
fn a_pair_that_raises_the_total() {
    for (type_byte, strike) in [(CALL, 11), (PUT, 9)] {
        let bytes = file(SeriesDraft::at_ten(type_byte), &[written(10, 2), held(strike, 1)]);
        assert_eq!(one_position(&bytes, 0), 100);
        let expected = "pair 0 1 1 100\nleft 0 1 100\npremium 0\ntotal 200\n";
        assert_eq!(margin_output(&bytes), expected);
        let alone = file(SeriesDraft::at_ten(type_byte), &[written(10, 2)]);
        assert_eq!(margin_output(&alone), "left 0 2 100\npremium 0\ntotal 100\n");
    }
}

#[test]
fn amounts_of_0_stay() {
    let bytes = file(SeriesDraft::at_ten(CALL), &[written(12, 9), written(10, 3), held(10, 3)]);
    assert_eq!(one_position(&bytes, 0), 0);
    assert_eq!(margin_output(&bytes), "pair 1 2 3 0\nleft 0 9 0\npremium 0\ntotal 0\n");
}

/// REB 1, M 5.
#[test]
fn a_rebate_of_a_row_knocked_out() {
    let out = |row: PositionDraft| row.with_barrier(UP_AND_OUT, 3000, 1).knocked_out();
    let rows = [out(written(3000, 1)), out(written(3000, 20)), out(written(3000, 21))];
    let bytes = file(SeriesDraft::checked(CALL), &rows);
    assert_eq!([0, 1, 2].map(|row| one_position(&bytes, row)), [100, 100, 200]);
}

/// Is this, in centavos, the least multiple of 100 that is not below the exact
/// amount, in millionths of a centavo?
fn least_multiple(amount: i64, exact: i128) -> bool {
    let millionths = |centavos: i64| i128::from(centavos) * 1_000_000;
    amount % 100 == 0 && millionths(amount) >= exact && millionths(amount - 100) < exact
}

/// Amount and exact amount of each pair line and of each left line.
fn line_amounts(account: &Account, answer: &Margin) -> [Vec<(i64, i128)>; 2] {
    let of_pairs = answer
        .pairs
        .iter()
        .map(|p| (p.amount, exact_of_pair(account, p.written, p.held, p.quantity)));
    let of_left = answer.left.iter().map(|l| (l.amount, exact_of_left(account, l.row, l.quantity)));
    [of_pairs.collect(), of_left.collect()]
}

fn accepted_accounts() -> Vec<Account> {
    all_cases().iter().filter_map(|case| read_account(&case.bytes).ok()).collect()
}

/// A file of a program in `crates`.
fn stored(program: &str, name: &str) -> Vec<u8> {
    let path = format!("{}/../crates/{program}/{name}", env!("CARGO_MANIFEST_DIR"));
    std::fs::read(&path).expect(&path)
}

/// The accepted accounts, each with the number in the `premium` line of the
/// output that stands in crates/margin_batch.
fn accounts_and_premiums() -> Vec<(Account, i64)> {
    let output = String::from_utf8(stored("margin_batch", "stdout")).expect("text");
    let answers: Vec<&str> = output.split("\n\n").collect();
    let premium = |answer: &str| {
        let line = answer.lines().find_map(|line| line.strip_prefix("premium ")).expect("premium");
        line.parse().expect("a number")
    };
    let cases = all_cases();
    // After the last answer nothing is left.
    assert_eq!(answers.len(), cases.len() + 1);
    let both = cases.iter().zip(answers);
    both.filter_map(|(case, answer)| Some((read_account(&case.bytes).ok()?, premium(answer))))
        .collect()
}

#[test]
fn every_line_of_the_vectors() {
    let mut lines = 0;
    for (account, premium) in accounts_and_premiums() {
        let answer = margin(&account);
        let [of_pairs, of_left] = line_amounts(&account, &answer);
        let mut sum = 0;
        for (amount, exact) in of_pairs.into_iter().chain(of_left) {
            assert!(least_multiple(amount, exact), "{amount} for {exact}");
            sum += amount;
            lines += 1;
        }
        assert_eq!(answer.total, sum + premium);
    }
    assert!(lines > 10_000, "{lines} lines");
}

/// Those of held rows add up to the premium that their account's output shows.
#[test]
fn every_position_of_the_vectors() {
    for (account, premium) in accounts_and_premiums() {
        let mut of_held = 0;
        for (row, position) in account.positions.iter().enumerate() {
            let amount = position_amount(&account, row);
            match position.side {
                Side::Held => of_held += amount,
                Side::Written => {
                    let exact = exact_of_left(&account, row, position.quantity);
                    assert!(least_multiple(amount, exact), "{amount} for {exact}");
                }
            }
        }
        assert_eq!(of_held, premium);
    }
}

/// A pair raises the total above what it is after one round of pairing less by
/// 100 centavos at most, and not at all where no contracts of its written row
/// are left.
#[test]
fn what_each_pair_adds_at_most() {
    let mut raised_by = BTreeSet::new();
    for account in accepted_accounts() {
        let answer = margin(&account);
        let total_with = |pair_amounts: i64, contracts_left: &[i64]| -> i64 {
            let left = rows_left(&account, contracts_left);
            pair_amounts + left.iter().map(|l| l.amount).sum::<i64>() + answer.premium
        };
        let (mut pair_amounts, mut contracts_left) = (0, contracts(&account));
        let mut total = total_with(pair_amounts, &contracts_left);
        for pair in &answer.pairs {
            pair_amounts += pair.amount;
            contracts_left[pair.written] -= pair.quantity;
            contracts_left[pair.held] -= pair.quantity;
            let before = total;
            total = total_with(pair_amounts, &contracts_left);
            let most = if contracts_left[pair.written] > 0 { 100 } else { 0 };
            assert!(total <= before + most, "{before}, then {total} with {pair:?}");
            if total > before {
                raised_by.insert(account.series_of(pair.written).option_type == OptionType::Call);
            }
        }
        assert_eq!(total, answer.total);
    }
    // By pairs of calls and of puts.
    assert_eq!(raised_by.len(), 2);
}

/// How an exact amount stands to a multiple of 100 centavos.
fn beside(exact: i128) -> &'static str {
    match exact % 100_000_000 {
        0 if exact == 0 => "nothing",
        0 => "a multiple",
        1 => "one fine unit above",
        99_999_999 => "one fine unit below",
        1_000_000 => "one centavo above",
        99_000_000 => "one centavo below",
        _ => "elsewhere",
    }
}

/// The vectors have pair lines and left lines of every sort, of calls and puts.
#[test]
fn vectors_of_every_sort() {
    let mut found = BTreeSet::new();
    for account in accepted_accounts().iter().filter(|account| account.series.len() == 1) {
        let is_call = account.series[0].option_type == OptionType::Call;
        let both = line_amounts(account, &margin(account));
        for (paired, lines) in [true, false].into_iter().zip(both) {
            found.extend(lines.iter().map(|(_, exact)| (is_call, paired, beside(*exact))));
        }
    }
    assert_eq!(found.len(), 2 * 2 * 7, "{found:?}");
}

/// Premiums that are multiples of 100 and others, of rows in pairs and of others.
#[test]
fn vectors_of_premiums() {
    let mut found = BTreeSet::new();
    for account in accepted_accounts() {
        let answer = margin(&account);
        for row in (0..account.positions.len()).filter(|r| account.positions[*r].premium > 0) {
            let paired = answer.pairs.iter().any(|pair| pair.held == row);
            found.insert((paired, premium_amount(&account, row) % 100 != 0));
        }
    }
    assert_eq!(found.len(), 2 * 2);
}

/// Accounts of calls and of puts with a total above that of their rows apart.
#[test]
fn vectors_that_pairs_make_dearer() {
    let mut dearer = BTreeSet::new();
    for account in accepted_accounts() {
        let apart: i64 = (0..account.positions.len()).map(|r| position_amount(&account, r)).sum();
        if margin(&account).total > apart {
            dearer.insert(account.series[0].option_type == OptionType::Call);
        }
    }
    assert_eq!(dearer.len(), 2);
}

/// The amounts that stand in crates/position_amounts are worked out by hand.
#[test]
fn amounts_worked_out_by_hand() {
    // The last file is cut off.
    let [input, output] = ["stdin", "stdout"].map(|name| stored("position_amounts", name));
    let files = input.strip_suffix(b"\x44\0\0\0cut").expect("a file cut off");
    let expected = output.strip_suffix(b"cut off\n").expect("its line");
    assert!(outputs_of(files, amounts_output).as_bytes() == expected);
}
