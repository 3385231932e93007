//! Reads many cases on standard input, each as its length in four
//! little-endian bytes and then its bytes: the day as four numbers of eight
//! little-endian bytes, series, high, low and close, then the file. Writes for
//! each a line, `day` or `refused` with number and row, then the bytes of the
//! file after it and a line feed.

use std::io::{Read, Write};

use reference::day::{day_output, Day};

fn main() {
    let mut input = Vec::new();
    std::io::stdin().read_to_end(&mut input).expect("standard input");
    let mut output = Vec::new();
    let mut rest = &input[..];
    while !rest.is_empty() {
        let length = u32::from_le_bytes(rest[..4].try_into().unwrap()) as usize;
        let (day, file) = rest[4..4 + length].split_at(32);
        output.extend(day_output(file, &day_of(day)));
        rest = &rest[4 + length..];
    }
    std::io::stdout().write_all(&output).expect("standard output");
}

fn day_of(bytes: &[u8]) -> Day {
    let number = |at: usize| u64::from_le_bytes(bytes[at..at + 8].try_into().unwrap());
    Day { series: number(0), high: number(8), low: number(16), close: number(24) }
}
