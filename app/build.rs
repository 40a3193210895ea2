//! Links the proved archive, made by `rt lib` in crates/program_exports. BENCHDOWEL_ARCHIVE names it where it is not in its usual place.

use std::path::PathBuf;

fn main() {
    let usual = concat!(env!("CARGO_MANIFEST_DIR"), "/../crates/program_exports/out/libprogram_exports.a");
    let archive = PathBuf::from(std::env::var_os("BENCHDOWEL_ARCHIVE").unwrap_or_else(|| usual.into()));
    println!("cargo:rerun-if-env-changed=BENCHDOWEL_ARCHIVE");
    println!("cargo:rerun-if-changed={}", archive.display());
    assert!(archive.is_file(), "there is no archive {}: `rt lib` in crates/program_exports makes it", archive.display());
    println!("cargo:rustc-link-arg={}", archive.display());
}
