//! `one_position ROW` reads one file on standard input and prints the amount
//! of that row, or the refusal number with a minus sign.

use std::io::Read;
use std::process::ExitCode;

fn main() -> ExitCode {
    let arguments: Vec<String> = std::env::args().skip(1).collect();
    let row = match arguments.as_slice() {
        [word] => word.parse::<u64>().ok(),
        _ => None,
    };
    let Some(row) = row else {
        eprintln!("usage: one_position ROW < file");
        return ExitCode::from(2);
    };
    let mut bytes = Vec::new();
    std::io::stdin().read_to_end(&mut bytes).expect("standard input");
    println!("{}", reference::position::one_position(&bytes, row));
    ExitCode::SUCCESS
}
