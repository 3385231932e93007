//! Reads many cases on standard input, each as its length in four
//! little-endian bytes and then its bytes, and prints for each the answers to
//! its calls with the whole list after each.

use std::io::{Read, Write};

use reference::instalment_cases::Case;
use reference::output::outputs_of;

fn main() {
    let mut input = Vec::new();
    std::io::stdin().read_to_end(&mut input).expect("standard input");
    let text = outputs_of(&input, |case| Case::of_bytes(case).output());
    std::io::stdout().write_all(text.as_bytes()).expect("standard output");
}
