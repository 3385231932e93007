//! Prints the list of all factors: code, days, fa and fb in a line, or code,
//! days and `refused` with number and row.

use std::io::Write;

fn main() {
    let text = reference::factors_list::factors_list();
    std::io::stdout().write_all(text.as_bytes()).expect("standard output");
}
