//! Finds the archive libquenhovach.a and has it linked: in the folder that QUENHOVACH_LIB_DIR names (a relative one is taken from this crate's folder), else in
//! crates/quenhovach/out of the repository.

use std::path::PathBuf;
use std::process::exit;
use std::{env, fs};

const VARIABLE: &str = "QUENHOVACH_LIB_DIR";

fn main() {
    println!("cargo:rerun-if-env-changed={VARIABLE}");
    let folder = folder();
    let archive = folder.join("libquenhovach.a");
    println!("cargo:rerun-if-changed={}", archive.display());
    if !fs::metadata(&archive).is_ok_and(|found| found.is_file()) {
        eprintln!("The archive {} is missing.", archive.display());
        eprintln!("Build it in crates/quenhovach of the repository with: rt lib");
        eprintln!("If it lies elsewhere, name its folder in {VARIABLE}.");
        exit(1);
    }
    println!("cargo:rustc-link-search=native={}", folder.display());
    println!("cargo:rustc-link-lib=static=quenhovach");
}

/// The folder of the archive.
fn folder() -> PathBuf {
    let manifest = PathBuf::from(env::var_os("CARGO_MANIFEST_DIR").expect("cargo sets it"));
    let named = env::var_os(VARIABLE).filter(|name| !name.is_empty());
    manifest.join(named.unwrap_or("../crates/quenhovach/out".into()))
}
