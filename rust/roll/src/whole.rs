//! Files that have their name only once they are whole.
//!
//! A new file is written beside the one that it is to replace, brought to the
//! disk and renamed. Where that fails, or a signal ends the tool, what was there
//! before stays and nothing else is left.

use crate::system::{hold, Unwanted};
use std::ffi::OsStr;
use std::fs::{File, Metadata, OpenOptions};
use std::io::{Error, ErrorKind, Result, Write};
use std::os::unix::fs::{fchown, FileExt, MetadataExt, OpenOptionsExt};
use std::path::{Path, PathBuf};
use std::sync::atomic::{AtomicU32, Ordering};

/// What becomes of a file that has the name already.
#[derive(Clone, Copy, Debug, PartialEq, Eq)]
pub enum Existing {
    Replaced,
    /// It stays, and writing fails.
    Kept,
}

/// Writes a file. What is no file, such as a pipe or a device, is written
/// straight through.
pub fn write(to: &OsStr, bytes: &[u8], existing: Existing) -> Result<()> {
    match Unfinished::create(to, existing)? {
        Some(file) => {
            file.write_at(0, bytes)?;
            file.finish()
        }
        None => write_through(to, bytes),
    }
}

fn write_through(to: &OsStr, bytes: &[u8]) -> Result<()> {
    let mut file = OpenOptions::new().write(true).truncate(true).open(to)?;
    file.write_all(bytes)?;
    synced(&file)
}

/// Brings what was written to the disk; what has none to go to need not.
fn synced(file: &File) -> Result<()> {
    use ErrorKind::{InvalidInput, ReadOnlyFilesystem, Unsupported};
    match file.sync_all() {
        Err(error) if [InvalidInput, ReadOnlyFilesystem, Unsupported].contains(&error.kind()) => {
            Ok(())
        }
        done => done,
    }
}

/// Fails where the name is taken by something that is to be kept.
pub fn not_taken(to: &OsStr, existing: Existing) -> Result<()> {
    match existing {
        Existing::Kept if std::fs::symlink_metadata(to).is_ok() => Err(taken()),
        _ => Ok(()),
    }
}

fn taken() -> Error {
    let why = "it is there already, and --no-clobber leaves it as it is";
    Error::new(ErrorKind::AlreadyExists, why)
}

/// Whether both are one file.
pub fn same_file(one: &Metadata, other: &Metadata) -> bool {
    (one.dev(), one.ino()) == (other.dev(), other.ino())
}

/// Where a name leads, link by link, whether something is there or not.
fn end_of_links(name: &OsStr) -> PathBuf {
    let mut place = PathBuf::from(name);
    // No system follows more of them.
    for _ in 0..40 {
        match std::fs::read_link(&place) {
            Ok(next) => place = folder(&place).join(next),
            Err(_) => break,
        }
    }
    place
}

fn folder(place: &Path) -> &Path {
    match place.parent() {
        Some(folder) if folder != Path::new("") => folder,
        _ => Path::new("."),
    }
}

/// A file on its way. Dropped before it is whole, it leaves nothing behind, and
/// what had its name stays.
pub struct Unfinished {
    file: File,
    /// Where it is until then, in the same folder.
    part: PathBuf,
    unwanted: &'static Unwanted,
    to: PathBuf,
    existing: Existing,
}

impl Unfinished {
    /// A new file that is to have this name, or to take the place of the file
    /// that has it; a link to that stays a link. None where the name is that of
    /// something else, or of a file that is open but has no name any more.
    pub fn create(to: &OsStr, existing: Existing) -> Result<Option<Unfinished>> {
        not_taken(to, existing)?;
        let place = end_of_links(to);
        let before = match std::fs::metadata(to) {
            Ok(before) => before,
            Err(error) if error.kind() == ErrorKind::NotFound => {
                return Unfinished::beside(place, None, existing).map(Some);
            }
            Err(error) => return Err(error),
        };
        if existing == Existing::Kept {
            return Err(taken());
        }
        let named = std::fs::metadata(&place).is_ok_and(|there| same_file(&there, &before));
        if !before.is_file() || !named {
            return Ok(None);
        }
        // Whether it may be written.
        OpenOptions::new().write(true).open(&place)?;
        Unfinished::beside(place, Some(before), existing).map(Some)
    }

    /// An empty file beside the place that it is to have.
    fn beside(to: PathBuf, before: Option<Metadata>, existing: Existing) -> Result<Unfinished> {
        static NUMBER: AtomicU32 = AtomicU32::new(0);
        const LONGEST: usize = 100;
        // There is no more room after a long name.
        let name = to.file_name().filter(|name| name.len() <= LONGEST);
        let mut options = OpenOptions::new();
        options.write(true).create_new(true);
        if before.is_some() {
            // Nobody else reads it before it has the permissions that it is due.
            options.mode(0o600);
        }
        let mut tries = 0;
        let (part, unwanted, file) = loop {
            let mut part = name.unwrap_or(OsStr::new("roll")).to_owned();
            let number = NUMBER.fetch_add(1, Ordering::Relaxed);
            part.push(format!(".part-{}-{number}", std::process::id()));
            let part = to.with_file_name(part);
            let unwanted = Unwanted::new(&part)?;
            let _hold = hold();
            match options.open(&part) {
                Ok(file) => {
                    unwanted.set_there(true);
                    break (part, unwanted, file);
                }
                // Left by another process of that number, or written by one on
                // another machine.
                Err(error) if error.kind() == ErrorKind::AlreadyExists && tries < 100 => tries += 1,
                Err(error) => {
                    let why = format!("no file can be made beside it: {error}");
                    return Err(Error::new(error.kind(), why));
                }
            }
        };
        let unfinished = Unfinished {
            file,
            part,
            unwanted,
            to,
            existing,
        };
        if let Some(before) = before {
            // Not everybody may give a file to its owner; the mode is what counts.
            let _ = fchown(&unfinished.file, Some(before.uid()), Some(before.gid()));
            unfinished.file.set_permissions(before.permissions())?;
        }
        Ok(unfinished)
    }

    pub fn write_at(&self, place: u64, bytes: &[u8]) -> Result<()> {
        self.file.write_all_at(bytes, place)
    }

    /// The file is whole and gets its name.
    pub fn finish(self) -> Result<()> {
        self.file.sync_all()?;
        match self.existing {
            Existing::Replaced => {
                let _hold = hold();
                std::fs::rename(&self.part, &self.to)?;
                self.unwanted.set_there(false);
            }
            Existing::Kept => self.take_free_name()?,
        }
        self.remove_part();
        // A folder that may not be read is not synced.
        File::open(folder(&self.to)).map_or(Ok(()), |folder| synced(&folder))
    }

    /// A second name is given only where nothing has it.
    fn take_free_name(&self) -> Result<()> {
        match std::fs::hard_link(&self.part, &self.to) {
            Ok(()) => Ok(()),
            Err(error) if error.kind() == ErrorKind::AlreadyExists => Err(taken()),
            // Not every disk has files with two names.
            Err(_) => self.claim_free_name(),
        }
    }

    /// An empty file is made only where nothing has its name; then it is
    /// replaced.
    fn claim_free_name(&self) -> Result<()> {
        let _hold = hold();
        match File::create_new(&self.to) {
            Ok(_) => {}
            Err(error) if error.kind() == ErrorKind::AlreadyExists => return Err(taken()),
            Err(error) => return Err(error),
        }
        let renamed = std::fs::rename(&self.part, &self.to);
        match renamed {
            Ok(()) => self.unwanted.set_there(false),
            Err(_) => {
                let _ = std::fs::remove_file(&self.to);
            }
        }
        renamed
    }

    /// Removes what is beside the place, if it is still there.
    fn remove_part(&self) {
        if self.unwanted.is_there() {
            let _hold = hold();
            let _ = std::fs::remove_file(&self.part);
            self.unwanted.set_there(false);
        }
    }
}

impl Drop for Unfinished {
    fn drop(&mut self) {
        self.remove_part();
    }
}

#[cfg(test)]
mod tests {
    use super::*;

    /// A new file with these bytes that is to have the name.
    fn unfinished(to: &Path, bytes: &[u8], existing: Existing) -> Unfinished {
        let file = Unfinished::create(to.as_os_str(), existing).unwrap();
        let file = file.unwrap();
        file.write_at(0, bytes).unwrap();
        file
    }

    fn names(folder: &Path) -> Vec<String> {
        let entries = std::fs::read_dir(folder).unwrap();
        let name = |entry: Result<std::fs::DirEntry>| entry.unwrap().file_name();
        let mut names: Vec<_> = entries.map(name).collect();
        names.sort();
        names
            .into_iter()
            .map(|n| n.into_string().unwrap())
            .collect()
    }

    /// A folder of its own, empty.
    fn empty_folder(name: &str) -> PathBuf {
        let folder = std::env::temp_dir().join(format!("roll-{name}-{}", std::process::id()));
        // What a run before left, if there was one.
        let _ = std::fs::remove_dir_all(&folder);
        std::fs::create_dir(&folder).unwrap();
        folder
    }

    /// Several on their way to one name do not meet; the last has it.
    #[test]
    fn each_unfinished_file_has_a_place_of_its_own() {
        let folder = empty_folder("places");
        let to = folder.join("out");
        let new = |bytes| unfinished(&to, bytes, Existing::Replaced);
        let (one, other, dropped) = (new(b"one"), new(b"other"), new(b"dropped"));
        assert_eq!(names(&folder).len(), 3);
        drop(dropped);
        other.finish().unwrap();
        assert_eq!(std::fs::read(&to).unwrap(), b"other");
        one.finish().unwrap();
        assert_eq!(std::fs::read(&to).unwrap(), b"one");
        assert_eq!(names(&folder), ["out"]);
        std::fs::remove_dir_all(&folder).unwrap();
    }

    /// A name that is taken while a file is on its way stays with who took it,
    /// also where files have no second names.
    #[test]
    fn a_name_that_is_taken_meanwhile() {
        let folder = empty_folder("taken");
        let to = folder.join("out");
        for name_it in [Unfinished::take_free_name, Unfinished::claim_free_name] {
            let file = unfinished(&to, b"new", Existing::Kept);
            name_it(&file).unwrap();
            drop(file);
            assert_eq!(std::fs::read(&to).unwrap(), b"new");
            std::fs::remove_file(&to).unwrap();

            let file = unfinished(&to, b"late", Existing::Kept);
            std::fs::write(&to, b"first").unwrap();
            let error = name_it(&file).unwrap_err();
            assert_eq!(error.kind(), ErrorKind::AlreadyExists);
            let error = file.finish().unwrap_err();
            assert_eq!(error.kind(), ErrorKind::AlreadyExists);
            assert_eq!(std::fs::read(&to).unwrap(), b"first");
            assert_eq!(names(&folder), ["out"]);
            std::fs::remove_file(&to).unwrap();
        }
        std::fs::remove_dir_all(&folder).unwrap();
    }
}
