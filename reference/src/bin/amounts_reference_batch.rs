//! Reads many files on standard input, each as its length in four
//! little-endian bytes and then its bytes, and prints the amounts of each
//! one's rows, then the refusal of the row after the last; or its refusal.

use std::io::{Read, Write};

use reference::output::{amounts_output, outputs_of};

fn main() {
    let mut input = Vec::new();
    std::io::stdin().read_to_end(&mut input).expect("standard input");
    let text = outputs_of(&input, amounts_output);
    std::io::stdout().write_all(text.as_bytes()).expect("standard output");
}
