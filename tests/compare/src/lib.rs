//! The engine's static library held against the second implementation.
//!
//! Every comparison calls both with the same bytes, pictures and lent memory
//! and asserts that the answers and every lent element afterwards are equal.
//! All chance comes from fixed seeds. With SUZDREPA_LONG=1 in the environment
//! the tests run about twenty times as many rounds.

pub mod both;
pub mod chance;
pub mod farthest;
pub mod hostile;
pub mod program;
pub mod scan;
pub mod tables;

use std::path::{Path, PathBuf};

/// The work tree's root.
pub fn root() -> PathBuf {
    Path::new(env!("CARGO_MANIFEST_DIR")).join("../..")
}

/// The static library that is tested, as `suzdrepa-sys` looks for it.
pub fn archive() -> PathBuf {
    let named = std::env::var_os("SUZDREPA_LIB_DIR");
    let folder = named.unwrap_or_else(|| "target/staticlib".into());
    root().join(folder).join("libengine.a")
}

/// The number of rounds: as given, or twenty times as many in a long run.
pub fn rounds(usual: usize) -> usize {
    match std::env::var_os("SUZDREPA_LONG") {
        Some(value) if value == "1" => 20 * usual,
        _ => usual,
    }
}
