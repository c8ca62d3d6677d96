//! Links the unit's static library, which `rt lib --cpu x86-64` in crates/unit_c writes to that crate's folder out.

use std::path::PathBuf;

fn main() {
    let here = PathBuf::from(std::env::var("CARGO_MANIFEST_DIR").expect("cargo sets the manifest's folder"));
    let folder = here.join("../crates/unit_c/out");
    let library = folder.join("libunit_c.a");
    println!("cargo:rerun-if-changed={}", library.display());
    println!("cargo:rustc-link-search=native={}", folder.display());
    println!("cargo:rustc-link-lib=static=unit_c");
    assert!(library.exists(), "{} is missing: run `rt lib --cpu x86-64` in crates/unit_c first", library.display());
}
