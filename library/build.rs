//! Finds the library's archive: the one that library/prove.sh writes, or the one named by the environment
//! variable SERPENTGLEAM_LIBRARY. A package that depends on this one hands it to the linker for its program alone, so
//! that tests are built without it.

use std::env::var_os;
use std::path::PathBuf;

fn main() {
    let top = PathBuf::from(var_os("CARGO_MANIFEST_DIR").expect("CARGO_MANIFEST_DIR")).join("..");
    let named = var_os("SERPENTGLEAM_LIBRARY");
    let archive = top.join(named.unwrap_or("target/staticlib/libserpentgleam.a".into()));
    println!("cargo:rerun-if-env-changed=SERPENTGLEAM_LIBRARY");
    println!("cargo:rerun-if-changed={}", archive.display());
    println!("cargo:archive={}", archive.display());
}
