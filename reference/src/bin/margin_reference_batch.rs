//! Reads many files on standard input, each as its length in four
//! little-endian bytes and then its bytes, and prints each one's output
//! followed by an empty line.

use std::io::{Read, Write};

use reference::output::{margin_output, outputs_of};

fn main() {
    let mut input = Vec::new();
    std::io::stdin().read_to_end(&mut input).expect("standard input");
    let text = outputs_of(&input, |file| margin_output(file) + "\n");
    std::io::stdout().write_all(text.as_bytes()).expect("standard output");
}
