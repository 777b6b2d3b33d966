//! What the tests of the tool share.

use std::ffi::OsString;
use std::path::PathBuf;

/// A folder of its own for each test.
pub struct Folder(pub PathBuf);

impl Folder {
    pub fn new(name: &str) -> Folder {
        let path = PathBuf::from(env!("CARGO_TARGET_TMPDIR")).join(name);
        // What a run before left, if there was one.
        let _ = std::fs::remove_dir_all(&path);
        std::fs::create_dir_all(&path).unwrap();
        Folder(path)
    }

    pub fn file(&self, name: &str, bytes: &[u8]) -> String {
        std::fs::write(self.0.join(name), bytes).unwrap();
        self.path(name)
    }

    pub fn path(&self, name: &str) -> String {
        self.0.join(name).to_str().unwrap().to_owned()
    }

    pub fn bytes(&self, name: &str) -> Vec<u8> {
        std::fs::read(self.0.join(name)).unwrap()
    }
}

/// Exit status, standard output and standard error.
pub fn roll(arguments: &[&str]) -> (u8, String, String) {
    let arguments: Vec<OsString> = arguments.iter().map(OsString::from).collect();
    let (mut out, mut err) = (Vec::new(), Vec::new());
    let status = roll::run(&arguments, &mut out, &mut err);
    (
        status,
        String::from_utf8(out).unwrap(),
        String::from_utf8(err).unwrap(),
    )
}

/// A refused or failed call says so on standard error alone.
pub fn fails(arguments: &[&str], status: u8, text: &str) {
    let (given, out, err) = roll(arguments);
    assert_eq!(given, status, "{arguments:?}: {err}");
    assert!(err.starts_with("roll: ") && err.ends_with('\n'), "{err}");
    assert!(err.contains(text), "{err} / {text}");
    assert_eq!(out, "");
}

pub fn succeeds(arguments: &[&str]) -> String {
    let (status, out, err) = roll(arguments);
    assert_eq!((status, err.as_str()), (0, ""), "{arguments:?}");
    out
}

/// A picture with some pattern.
pub fn pgm(width: usize, height: usize, largest: u32) -> Vec<u8> {
    let mut bytes = format!("P5\n{width} {height}\n{largest}\n").into_bytes();
    for i in 0..(width * height) as u32 {
        let pixel = (i * i * 7 + i / 3) % (largest + 1);
        if largest > 255 {
            bytes.push((pixel >> 8) as u8);
        }
        bytes.push(pixel as u8);
    }
    bytes
}

/// The names in a folder of files that are not whole.
pub fn parts(folder: &Folder) -> Vec<OsString> {
    std::fs::read_dir(&folder.0)
        .unwrap()
        .map(|entry| entry.unwrap().file_name())
        .filter(|name| name.to_string_lossy().contains(".part"))
        .collect()
}
