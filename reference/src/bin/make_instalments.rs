//! `make_instalments FOLDER` writes `cases` (calls on lists, with their files)
//! and `answers` (what is printed for them), and prints what was made.

use std::path::PathBuf;
use std::process::ExitCode;

use reference::instalment_cases::Call;
use reference::instalment_vectors::{all_instalments, answers_text, cases_bytes, Instalments};

fn main() -> ExitCode {
    let Some(folder) = std::env::args().nth(1).map(PathBuf::from) else {
        eprintln!("usage: make_instalments FOLDER");
        return ExitCode::from(2);
    };
    let cases = all_instalments();
    let (input, output) = (cases_bytes(&cases), answers_text(&cases));
    std::fs::write(folder.join("cases"), &input).expect("cases");
    std::fs::write(folder.join("answers"), &output).expect("answers");
    report(&cases);
    let calls: usize = cases.iter().map(|case| case.case.calls.len()).sum();
    let (count, read, written) = (cases.len(), input.len(), output.len());
    println!("{count} cases, {calls} calls, {read} bytes in cases, {written} bytes in answers");
    ExitCode::SUCCESS
}

/// Cases by group, and calls by outcome.
fn report(cases: &[Instalments]) {
    let mut groups: Vec<(&str, usize)> = Vec::new();
    let (mut made, mut amounts, mut apart, mut refused) = (0, 0, 0, [0; 20]);
    for Instalments { group, case, .. } in cases {
        match groups.iter_mut().find(|(known, _)| known == group) {
            Some((_, count)) => *count += 1,
            None => groups.push((group, 1)),
        }
        for (call, (answer, _)) in case.calls.iter().zip(case.answers()) {
            match (answer, call) {
                (Ok(_), Call::Pair { .. }) => made += 1,
                (Ok(_), Call::Amount { .. }) => amounts += 1,
                (Ok(_), Call::Apart { .. }) => apart += 1,
                (Err(refusal), _) => refused[refusal.number as usize] += 1,
            }
        }
    }
    for (group, count) in groups {
        println!("{count:5} {group}");
    }
    println!("{made:5} calls that pair\n{amounts:5} amounts\n{apart:5} calls that take apart");
    for (number, count) in refused.iter().enumerate().filter(|(_, count)| **count > 0) {
        println!("{count:5} refused {number}");
    }
}
