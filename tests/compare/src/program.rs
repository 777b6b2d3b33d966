//! Runs a proved program on bytes.

use std::io::Write;
use std::path::{Path, PathBuf};
use std::process::{Command, Stdio};

/// The program of this name, in the folder that the environment variable
/// SUZDREPA_BIN_DIR names, else where `rt` leaves it, in its crate.
fn path(name: &str) -> PathBuf {
    let folder = match std::env::var_os("SUZDREPA_BIN_DIR") {
        Some(folder) => PathBuf::from(folder),
        None => Path::new(env!("CARGO_MANIFEST_DIR")).join(format!("../../crates/{name}/out")),
    };
    let path = folder.join(name);
    assert!(
        path.is_file(),
        "{} is not there: run `rt run` in crates/{name} first, or name its folder in SUZDREPA_BIN_DIR",
        path.display()
    );
    path
}

/// What the program writes to standard output for these bytes.
pub fn run(name: &str, input: &[u8]) -> Vec<u8> {
    let mut child = Command::new(path(name))
        .stdin(Stdio::piped())
        .stdout(Stdio::piped())
        .spawn()
        .expect("the program starts");
    let mut stdin = child.stdin.take().expect("piped");
    // The program may stop reading once the answer is settled.
    let written = stdin.write_all(input);
    if let Err(error) = written {
        assert_eq!(error.kind(), std::io::ErrorKind::BrokenPipe);
    }
    drop(stdin);
    let output = child.wait_with_output().expect("the program ends");
    assert!(output.status.code().is_some(), "{}", output.status);
    output.stdout
}
