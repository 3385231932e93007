//! Reads one file on standard input and prints its lines and total, or
//! `refused` with number and row.

use std::io::{Read, Write};

fn main() {
    let mut bytes = Vec::new();
    std::io::stdin().read_to_end(&mut bytes).expect("standard input");
    let text = reference::output::margin_output(&bytes);
    std::io::stdout().write_all(text.as_bytes()).expect("standard output");
}
