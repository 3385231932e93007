//! `make_vectors FOLDER` writes `stdin` (each account as its length in four
//! little-endian bytes, then its bytes) and `stdout` (each account's printed
//! output followed by an empty line), and prints what was made.

use std::path::PathBuf;
use std::process::ExitCode;

use reference::output::margin_output;
use reference::vectors::{all_cases, stdin_bytes, stdout_text, Case};

fn main() -> ExitCode {
    let Some(folder) = std::env::args().nth(1).map(PathBuf::from) else {
        eprintln!("usage: make_vectors FOLDER");
        return ExitCode::from(2);
    };
    let cases = all_cases();
    let (input, output) = (stdin_bytes(&cases), stdout_text(&cases));
    std::fs::write(folder.join("stdin"), &input).expect("stdin");
    std::fs::write(folder.join("stdout"), &output).expect("stdout");
    report(&cases);
    let (accounts, read, written) = (cases.len(), input.len(), output.len());
    println!("{accounts} accounts, {read} bytes in stdin, {written} bytes in stdout");
    ExitCode::SUCCESS
}

/// By group and by outcome.
fn report(cases: &[Case]) {
    let mut groups: Vec<(&str, usize)> = Vec::new();
    let mut refused = [0; 14];
    for case in cases {
        match groups.iter_mut().find(|(group, _)| *group == case.group) {
            Some((_, count)) => *count += 1,
            None => groups.push((case.group, 1)),
        }
        let text = margin_output(&case.bytes);
        if let Some(rest) = text.strip_prefix("refused ") {
            let number: usize = rest.split(' ').next().unwrap().parse().unwrap();
            refused[number] += 1;
        }
    }
    for (group, count) in groups {
        println!("{count:5} {group}");
    }
    println!("{:5} accepted", cases.len() - refused.iter().sum::<usize>());
    for (number, count) in refused.iter().enumerate().filter(|(_, count)| **count > 0) {
        println!("{count:5} refused {number}");
    }
}
