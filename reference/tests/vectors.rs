//! The test files do what they were made for.

use reference::account::{Account, Barrier, OptionType, Position, Side};
use reference::lines::margin;
use reference::output::margin_output;
use reference::reader::{distance, read_account, Refusal};
use reference::vectors::{all_cases, stdin_bytes, stdout_text, Expect};

fn accepted_accounts() -> Vec<Account> {
    all_cases().iter().filter_map(|case| read_account(&case.bytes).ok()).collect()
}

#[test]
fn every_case_is_accepted_or_refused_as_it_was_made() {
    for case in all_cases() {
        let found = read_account(&case.bytes).map(|_| ());
        match case.expect {
            Expect::Accepted => assert_eq!(found, Ok(()), "{}: {}", case.group, case.name),
            Expect::Refused(number, row) => {
                assert_eq!(found, Err(Refusal { number, row }), "{}: {}", case.group, case.name)
            }
            Expect::Open => {}
        }
    }
}

/// Every refusal of a file, those of a row at row 0 and at a later one.
#[test]
fn every_refusal() {
    let cases = all_cases();
    assert_eq!(cases.len(), 2_208);
    for number in [1, 2, 4, 5, 6, 7, 8, 9, 10, 11] {
        assert!(cases.iter().any(|c| c.expect == Expect::Refused(number, 0)), "{number} at 0");
        let later =
            |expect| matches!(expect, Expect::Refused(found, row) if found == number && row > 0);
        assert!(number < 5 || cases.iter().any(|c| later(c.expect)), "{number} later");
    }
}

/// Number 3 is given for nothing.
#[test]
fn no_refusal_3() {
    for case in all_cases() {
        let number = read_account(&case.bytes).map_or_else(|refusal| refusal.number, |_| 0);
        assert_ne!(number, 3, "{}: {}", case.group, case.name);
    }
}

/// Accepted, with 1 and with 32 series, with and without a cover sheet.
#[test]
fn accounts_without_positions() {
    let mut found = Vec::new();
    for case in all_cases() {
        let Ok(account) = read_account(&case.bytes) else { continue };
        if account.positions.is_empty() {
            assert_eq!(margin_output(&case.bytes), "premium 0\ntotal 0\n", "{}", case.name);
            let series = account.series.len();
            found.push((series, case.bytes.len() > distance(series, 0)));
        }
    }
    for shape in [(1, false), (1, true), (32, false), (32, true)] {
        assert!(found.contains(&shape), "{shape:?}");
    }
}

#[test]
fn the_largest_files() {
    let longest = |bytes: &[u8]| bytes.len() == 65_536 && read_account(bytes).is_ok();
    assert!(all_cases().iter().any(|case| longest(&case.bytes)));
    let accounts = accepted_accounts();
    assert!(accounts.iter().any(|a| a.positions.len() == 256 && a.series.len() == 32));
    let answers: Vec<_> = accounts.iter().map(margin).collect();
    assert_eq!(answers.iter().map(|answer| answer.pairs.len()).max(), Some(255));
    let (mut most, mut most_unblocked) = (0, 0);
    for (account, answer) in accounts.iter().zip(&answers) {
        let (p, lines) = (account.positions.len(), answer.pairs.len() + answer.left.len());
        // Document 02 [9]; where none are blocked, as document 01 says.
        if account.positions.iter().any(|position| position.blocked > 0) {
            assert!(lines < 2 * p);
            most = most.max(lines);
        } else {
            assert!(lines <= p);
            most_unblocked = most_unblocked.max(lines);
        }
    }
    assert_eq!((most, most_unblocked), (511, 256));
}

/// Every barrier kind on written and held rows of calls and puts.
#[test]
fn every_barrier() {
    let kind = |position: &Position| match position.barrier {
        Barrier::None => 0,
        Barrier::UpAndIn(_) => 1,
        Barrier::DownAndIn(_) => 2,
        Barrier::UpAndOut(_) => 3,
        Barrier::DownAndOut(_) => 4,
    };
    let mut found = Vec::new();
    for account in accepted_accounts() {
        for position in &account.positions {
            let option_type = account.series[position.series].option_type;
            found.push((option_type, position.side, kind(position)));
        }
    }
    for option_type in [OptionType::Call, OptionType::Put] {
        for side in [Side::Written, Side::Held] {
            for kind in 0..5 {
                let row = (option_type, side, kind);
                assert!(found.contains(&row), "{row:?}");
            }
        }
    }
}

#[test]
fn the_two_files_belong_together() {
    let cases = all_cases();
    let input = stdin_bytes(&cases);
    let text = stdout_text(&cases);
    let mut outputs = text.split("\n\n");
    let mut rest = &input[..];
    for _ in &cases {
        let (length, after) = rest.split_at(4);
        let length = u32::from_le_bytes(length.try_into().unwrap()) as usize;
        let (bytes, after) = after.split_at(length);
        assert_eq!(margin_output(bytes), outputs.next().unwrap().to_string() + "\n");
        rest = after;
    }
    assert!(rest.is_empty());
    assert_eq!(outputs.next(), Some(""));
    assert_eq!(outputs.next(), None);
}

/// The files that stand in the repository are those the generator makes.
#[test]
fn the_stored_files_are_up_to_date() {
    let stored = |name: &str| {
        let folder = concat!(env!("CARGO_MANIFEST_DIR"), "/../crates/margin_batch/");
        std::fs::read(folder.to_string() + name).expect(name)
    };
    let cases = all_cases();
    assert!(stored("stdin") == stdin_bytes(&cases));
    assert!(stored("stdout") == stdout_text(&cases).into_bytes());
}
