//! Finds the proved library, libdialtable.a, and has it linked.

use std::env;
use std::path::{Path, PathBuf};

fn main() {
    println!("cargo::rerun-if-env-changed=DIALTABLE_LIB");
    let folder = folder();
    let archive = folder.join("libdialtable.a");
    println!("cargo::rerun-if-changed={}", archive.display());
    if archive.is_file() {
        println!("cargo::rustc-link-search=native={}", folder.display());
        // Not bundled: the archive goes to the linker as it is.
        println!("cargo::rustc-link-lib=static:-bundle=dialtable");
    } else {
        println!(
            "cargo::error={} is missing: run 'make lib', or set DIALTABLE_LIB to the folder that holds it",
            archive.display()
        );
    }
}

/// The folder that DIALTABLE_LIB names, else the one that `make lib` fills.
fn folder() -> PathBuf {
    match env::var_os("DIALTABLE_LIB") {
        Some(folder) if !folder.is_empty() => PathBuf::from(folder),
        _ => Path::new(env!("CARGO_MANIFEST_DIR")).join("../target/staticlib"),
    }
}
