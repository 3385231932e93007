//! `make_days FOLDER` writes `stdin` (the cases of the day program) and
//! `stdout` (what it writes for them), and prints what was made.

use std::path::PathBuf;
use std::process::ExitCode;

use reference::day::apply_day;
use reference::day_vectors::{all_days, stdin_bytes, stdout_bytes, DayCase};

fn main() -> ExitCode {
    let Some(folder) = std::env::args().nth(1).map(PathBuf::from) else {
        eprintln!("usage: make_days FOLDER");
        return ExitCode::from(2);
    };
    let cases = all_days();
    let (input, output) = (stdin_bytes(&cases), stdout_bytes(&cases));
    std::fs::write(folder.join("stdin"), &input).expect("stdin");
    std::fs::write(folder.join("stdout"), &output).expect("stdout");
    report(&cases);
    let (count, read, written) = (cases.len(), input.len(), output.len());
    println!("{count} cases, {read} bytes in stdin, {written} bytes in stdout");
    ExitCode::SUCCESS
}

/// By group and by outcome.
fn report(cases: &[DayCase]) {
    let mut groups: Vec<(&str, usize)> = Vec::new();
    let mut refused = [0; 18];
    for case in cases {
        match groups.iter_mut().find(|(group, _)| *group == case.group) {
            Some((_, count)) => *count += 1,
            None => groups.push((case.group, 1)),
        }
        if let Err(refusal) = apply_day(&mut case.file.clone(), &case.day) {
            refused[refusal.number as usize] += 1;
        }
    }
    for (group, count) in groups {
        println!("{count:5} {group}");
    }
    println!("{:5} applied", cases.len() - refused.iter().sum::<usize>());
    for (number, count) in refused.iter().enumerate().filter(|(_, count)| **count > 0) {
        println!("{count:5} refused {number}");
    }
}
