//! Links the proved static library `libengine.a`.
//!
//! It is looked for in the folder that the environment variable
//! SUZDREPA_LIB_DIR names, a relative one from the work tree's root, else in
//! `target/staticlib` there.

use std::path::PathBuf;

fn main() {
    println!("cargo::rerun-if-env-changed=SUZDREPA_LIB_DIR");
    let manifest = std::env::var_os("CARGO_MANIFEST_DIR").expect("cargo sets it");
    let named = std::env::var_os("SUZDREPA_LIB_DIR");
    let folder = PathBuf::from(manifest)
        .join("../..")
        .join(named.unwrap_or_else(|| "target/staticlib".into()));
    let archive = folder.join("libengine.a");
    println!("cargo::rerun-if-changed={}", archive.display());
    if !archive.is_file() {
        println!(
            "cargo::error={} is not there: run `tools/library` first, or name its folder in SUZDREPA_LIB_DIR",
            archive.display()
        );
        return;
    }
    println!("cargo::rustc-link-search=native={}", folder.display());
    println!("cargo::rustc-link-lib=static=engine");
}
