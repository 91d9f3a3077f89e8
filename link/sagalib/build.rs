//! Says where the static library stands: in the folder that SAGALIB_FOLDER names, or else where `rt lib` in crates/sagalib writes it.
use std::env;
use std::path::PathBuf;

fn main() {
    println!("cargo::rerun-if-env-changed=SAGALIB_FOLDER");
    let folder = env::var_os("SAGALIB_FOLDER").map_or_else(
        || PathBuf::from(env!("CARGO_MANIFEST_DIR")).join("../../crates/sagalib/out"),
        PathBuf::from,
    );
    let archive = folder.join("libsagalib.a");
    println!("cargo::rerun-if-changed={}", archive.display());
    if !archive.is_file() {
        println!(
            "cargo::error=there is no {}: `rt lib` in crates/sagalib makes it",
            archive.display()
        );
    }
    println!("cargo::rustc-link-search=native={}", folder.display());
}
