//! Links the programs with the library's archive, and the program `against` with an earlier one too: the one named by the
//! environment variable SERPENTGLEAM_EARLIER, where the names of all functions begin with `earlier_`.

use std::env::var;

fn main() {
    let archive = var("DEP_SERPENTGLEAM_ARCHIVE").expect("the path of the archive");
    println!("cargo:rerun-if-changed={archive}");
    println!("cargo:rustc-link-arg-bins={archive}");
    println!("cargo:rerun-if-env-changed=SERPENTGLEAM_EARLIER");
    if let Ok(earlier) = var("SERPENTGLEAM_EARLIER") {
        println!("cargo:rerun-if-changed={earlier}");
        println!("cargo:rustc-link-arg-bin=against={earlier}");
    }
}
