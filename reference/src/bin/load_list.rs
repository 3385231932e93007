//! Writes the list of loads: of each case a line with seed, p, room and what
//! came of it, then the buffer's bytes and a line feed.

use std::io::Write;

fn main() {
    let list = reference::load_list::load_list();
    std::io::stdout().write_all(&list).expect("standard output");
}
