//! Links libquenhovach.a of the repository's crates/quenhovach/out; QUENHOVACH_LIB_DIR may name
//! another folder.

use std::path::PathBuf;

fn main() {
    let root = PathBuf::from(std::env::var("CARGO_MANIFEST_DIR").expect("set by cargo"));
    let folder = match std::env::var("QUENHOVACH_LIB_DIR") {
        Ok(folder) => PathBuf::from(folder),
        Err(_) => root.join("../../crates/quenhovach/out"),
    };
    println!("cargo:rerun-if-env-changed=QUENHOVACH_LIB_DIR");
    println!(
        "cargo:rerun-if-changed={}",
        folder.join("libquenhovach.a").display()
    );
    println!("cargo:rustc-link-search=native={}", folder.display());
    println!("cargo:rustc-link-lib=static=quenhovach");
}
