//! What becomes of the files that are written, and of those that were there
//! before: on a full disk, under signals, with --no-clobber.

mod shared;

use shared::{fails, parts, pgm, roll, succeeds, Folder};
use std::ffi::{c_int, OsString};
use std::io::{Read, Write};
use std::os::unix::fs::{symlink, PermissionsExt};
use std::os::unix::process::{CommandExt, ExitStatusExt};
use std::path::Path;
use std::process::{Child, Command, Output, Stdio};
use std::time::{Duration, Instant};

const PROGRAM: &str = env!("CARGO_BIN_EXE_roll");

/// What stands for OUT among the words of a command.
const OUT: &str = "OUT";

/// A folder with something for every command to read, and a call of each
/// command that writes a file.
fn commands(name: &str) -> (Folder, Vec<Vec<String>>) {
    let folder = Folder::new(name);
    let [table, cut, plane, copy, shown] =
        ["t.table", "cut.table", "plane", "copy", "shown.pgm"].map(|name| folder.path(name));
    // Its coefficients and its pixels take more than 1024 bytes.
    let picture = folder.file("p.pgm", &pgm(50, 40, 255));
    succeeds(&["suggest", "--view", "8", "1", &table]);
    succeeds(&["suggest", "--products", "--table", &table, &cut]);
    succeeds(&["forward97", &table, &picture, &plane]);
    succeeds(&["view", &plane, &shown]);
    succeeds(&["copy", &picture, &copy]);
    let text = folder.file("t.txt", succeeds(&["text", &table]).as_bytes());
    let calls: [&[&str]; 14] = [
        &["suggest", "8", "1", OUT],
        &["suggest", "--products", "--table", &table, OUT],
        &["table", &text, OUT],
        &["change", &table, "1", "rows", "P1", "12", "20", OUT],
        &["constant", &table, "P1", "24", OUT],
        &["product", &cut, "1", "rows", "P1", "24", OUT],
        &["forward97", &table, &picture, OUT],
        &["scan", &table, &picture, OUT],
        &["view", &plane, OUT],
        &["view", &table, &plane, OUT],
        &["difference", &picture, &shown, OUT],
        &["copy", &picture, OUT],
        &["restore", &copy, OUT],
        &["picture", &plane, OUT],
    ];
    let words = |call: &&[&str]| call.iter().map(|word| word.to_string()).collect();
    let calls = calls.iter().map(words).collect();
    (folder, calls)
}

/// The call with a name for OUT.
fn with_out<'a>(call: &'a [String], out: &'a str) -> Vec<&'a str> {
    let word = |word: &'a String| if word == OUT { out } else { word };
    call.iter().map(word).collect()
}

/// What a folder has, by name.
fn names(folder: &Path) -> Vec<OsString> {
    let entries = std::fs::read_dir(folder).unwrap();
    let mut names: Vec<_> = entries.map(|entry| entry.unwrap().file_name()).collect();
    names.sort();
    names
}

/// Runs the program itself after a few words of bash.
fn after(preparation: &str, arguments: &[&str]) -> Output {
    let script = format!("{preparation} && exec \"$0\" \"$@\"");
    Command::new("bash")
        .args(["-c", &script, PROGRAM])
        .args(arguments)
        .stdin(Stdio::null())
        .output()
        .unwrap()
}

/// A failed call says so on standard error alone: exit status 2 and the file.
fn told(output: &Output, text: &str) {
    let err = String::from_utf8_lossy(&output.stderr);
    assert_eq!(output.status.code(), Some(2), "{err}");
    assert!(err.starts_with(&format!("roll: {text}")), "{err} / {text}");
    assert!(err.ends_with('\n') && err.lines().count() == 1, "{err}");
}

/// Every file past its limit, as on a full disk: at the first byte, and after
/// some are written.
#[test]
fn a_full_disk() {
    let (folder, calls) = commands("full_disk");
    let out = folder.path("out");
    let mut cut_short = 0;
    for call in &calls {
        let words = with_out(call, &out);
        succeeds(&words);
        let whole = folder.bytes("out");
        for limit in ["0", "1"] {
            if limit == "1" && whole.len() <= 1024 {
                continue;
            }
            cut_short += usize::from(limit == "1");
            for before in [None, Some(b"what was there")] {
                let _ = std::fs::remove_file(&out);
                if let Some(before) = before {
                    folder.file("out", before);
                }
                let there = names(&folder.0);
                let output = after(&format!("ulimit -f {limit}"), &words);
                told(&output, &format!("{out}: File too large"));
                assert_eq!(output.stdout, b"", "{call:?}");
                let left = std::fs::read(&out).ok();
                assert_eq!(left.as_deref(), before.map(|b| &b[..]), "{call:?}");
                assert_eq!(names(&folder.0), there, "{call:?}");
            }
        }
        // With room enough it is replaced.
        let output = after("ulimit -f 100", &words);
        assert!(output.status.success());
        assert!(folder.bytes("out") == whole, "{call:?}");
    }
    assert_eq!(cut_short, 8);
    assert_eq!(parts(&folder), [""; 0]);
}

#[test]
fn a_full_disk_for_the_sample() {
    let folder = Folder::new("full_sample");
    let (old, new) = (folder.path("old"), folder.path("new"));
    std::fs::create_dir(&old).unwrap();
    folder.file("old/roll.pgm", b"what was there");
    for limit in ["ulimit -f 0", "ulimit -f 1"] {
        let output = after(limit, &["sample", &old]);
        told(&output, &format!("{old}/roll.pgm: File too large"));
        assert_eq!(folder.bytes("old/roll.pgm"), b"what was there");
        assert_eq!(names(Path::new(&old)), ["roll.pgm"]);
        let output = after(limit, &["sample", &new]);
        told(&output, &format!("{new}/roll.pgm: File too large"));
        assert_eq!(names(Path::new(&new)), [""; 0]);
    }
    succeeds(&["sample", &old]);
    assert_eq!(names(Path::new(&old)).len(), 7);
}

/// What is no file is written straight through, and a failure is told.
#[test]
fn pipes_and_devices() {
    let (folder, calls) = commands("devices");
    let (out, pipe) = (folder.path("out"), folder.path("pipe"));
    let made = Command::new("mkfifo").arg(&pipe).status().unwrap();
    assert!(made.success());
    let there = names(&folder.0);
    for call in calls.iter().filter(|call| call[0] != "scan") {
        succeeds(&with_out(call, &out));
        let whole = folder.bytes("out");
        std::fs::remove_file(&out).unwrap();
        succeeds(&with_out(call, "/dev/null"));
        let reader = std::thread::spawn({
            let pipe = pipe.clone();
            move || std::fs::read(pipe).unwrap()
        });
        succeeds(&with_out(call, &pipe));
        assert!(reader.join().unwrap() == whole, "{call:?}");
        // Standard output as a file that is named; the message follows.
        let output = after("true", &with_out(call, "/dev/stdout"));
        assert!(output.status.success());
        assert!(output.stdout.starts_with(&whole), "{call:?}");
        if Path::new("/dev/full").exists() {
            let output = after("true", &with_out(call, "/dev/full"));
            told(&output, "/dev/full: No space left");
        }
        fails(&with_out(call, folder.0.to_str().unwrap()), 2, "directory");
    }
    assert_eq!(names(&folder.0), there);
}

#[test]
fn a_standard_output_that_is_full() {
    let (folder, _) = commands("full_output");
    let table = folder.path("t.table");
    let to = folder.path("shown");
    for command in ["text", "show"] {
        let output = after(&format!("ulimit -f 0 && exec >{to}"), &[command, &table]);
        told(&output, "standard output: File too large");
        if Path::new("/dev/full").exists() {
            let output = after("exec >/dev/full", &[command, &table]);
            told(&output, "standard output: No space left");
        }
    }
}

// For a child before it becomes the program: the tests may have been started
// with signals ignored, as in the background of a shell.
extern "C" {
    fn signal(number: c_int, handler: usize) -> usize;
}
const BY_DEFAULT: usize = 0;
const IGNORED: usize = 1;

/// A scan to OUT that reads from a pipe and has begun to write. It is killed
/// where a test fails.
struct Begun(Child);

impl Begun {
    fn new(folder: &Folder, options: &[&str], first: &[u8], handler: usize) -> Begun {
        let before = parts(folder).len();
        let (table, out) = (folder.path("t.table"), folder.path("out"));
        let mut command = Command::new(PROGRAM);
        command
            .args(["scan", &table, "-", &out])
            .args(options)
            .stdin(Stdio::piped())
            .stdout(Stdio::piped())
            .stderr(Stdio::piped());
        // Safe: the child calls nothing but `signal` before it is the program.
        let child = unsafe {
            command.pre_exec(move || {
                for (number, _) in SIGNALS {
                    signal(number, handler);
                }
                Ok(())
            })
        };
        let mut begun = Begun(child.spawn().unwrap());
        begun.0.stdin.as_mut().unwrap().write_all(first).unwrap();
        let start = Instant::now();
        while parts(folder).len() == before {
            assert!(start.elapsed() < Duration::from_secs(60));
            std::thread::sleep(Duration::from_millis(2));
        }
        begun
    }

    fn signal(&self, name: &str) {
        let script = format!("kill -s {name} {}", self.0.id());
        let sent = Command::new("bash").args(["-c", &script]).status();
        assert!(sent.unwrap().success());
    }

    /// Gives it the rest of its input and waits for its end.
    fn ends(mut self, rest: &[u8]) -> Output {
        self.0.stdin.take().unwrap().write_all(rest).unwrap();
        self.output()
    }

    /// Waits for its end.
    fn output(&mut self) -> Output {
        let (mut stdout, mut stderr) = (Vec::new(), Vec::new());
        let mut from = self.0.stdout.take().unwrap();
        from.read_to_end(&mut stdout).unwrap();
        let mut from = self.0.stderr.take().unwrap();
        from.read_to_end(&mut stderr).unwrap();
        Output {
            status: self.0.wait().unwrap(),
            stdout,
            stderr,
        }
    }
}

impl Drop for Begun {
    fn drop(&mut self) {
        // Mostly it has ended before.
        let _ = self.0.kill();
        let _ = self.0.wait();
    }
}

/// The signals that end a program, by number and name.
const SIGNALS: [(c_int, &str); 3] = [(1, "HUP"), (2, "INT"), (15, "TERM")];

/// The pipe stays open: nothing but the signal ends the scan.
#[test]
fn signals() {
    let (folder, _) = commands("signals");
    let out = folder.path("out");
    let strip = folder.bytes("p.pgm");
    let some = &strip[..strip.len() / 2];
    for (number, name) in SIGNALS {
        for options in [&[][..], &["--no-clobber"]] {
            for before in [None, Some(b"what was there")] {
                let _ = std::fs::remove_file(&out);
                if before.is_some() && !options.is_empty() {
                    continue;
                }
                if let Some(before) = before {
                    folder.file("out", before);
                }
                let there = names(&folder.0);
                let mut scan = Begun::new(&folder, options, some, BY_DEFAULT);
                scan.signal(name);
                let output = scan.output();
                assert_eq!(output.status.signal(), Some(number), "{name}");
                assert_eq!((output.stdout, output.stderr), (vec![], vec![]));
                let left = std::fs::read(&out).ok();
                assert_eq!(left.as_deref(), before.map(|b| &b[..]), "{name}");
                assert_eq!(names(&folder.0), there, "{name}");
            }
        }
    }
}

/// As `nohup` wants it.
#[test]
fn signals_that_are_ignored_stay_ignored() {
    let (folder, _) = commands("ignored_signals");
    let strip = folder.bytes("p.pgm");
    let (some, rest) = strip.split_at(strip.len() / 2);
    let scan = Begun::new(&folder, &[], some, IGNORED);
    for (_, name) in SIGNALS {
        scan.signal(name);
    }
    assert!(scan.ends(rest).status.success());
    assert!(folder.bytes("out") == folder.bytes("plane"));
    assert_eq!(parts(&folder), [""; 0]);
}

/// Each has a file of its own until it is whole; the last that ends has the
/// name.
#[test]
fn two_scans_to_one_file() {
    let (folder, _) = commands("two_scans");
    let strip = folder.bytes("p.pgm");
    let mut light = strip.clone();
    let end = light.len();
    light[end - 50 * 40..].fill(255);
    let due = folder.path("light.plane");
    let picture = folder.file("light.pgm", &light);
    succeeds(&["forward97", &folder.path("t.table"), &picture, &due]);
    let half = end / 2;
    let one = Begun::new(&folder, &[], &strip[..half], BY_DEFAULT);
    let other = Begun::new(&folder, &[], &light[..half], BY_DEFAULT);
    let names = parts(&folder);
    assert!(names.len() == 2 && names[0] != names[1], "{names:?}");
    assert!(other.ends(&light[half..]).status.success());
    assert!(folder.bytes("out") == folder.bytes("light.plane"));
    assert_eq!(parts(&folder).len(), 1);
    assert!(one.ends(&strip[half..]).status.success());
    assert!(folder.bytes("out") == folder.bytes("plane"));
    assert_eq!(parts(&folder), [""; 0]);
}

/// What has the name stays as it is, whatever it is.
#[test]
fn no_clobber() {
    let (folder, calls) = commands("no_clobber");
    let (out, link, nowhere) = (
        folder.path("out"),
        folder.path("link"),
        folder.path("nowhere"),
    );
    let why = "it is there already, and --no-clobber leaves it as it is\n";
    symlink("nowhere", &link).unwrap();
    for call in &calls {
        let words = |name| [&with_out(call, name)[..], &["--no-clobber"]].concat();
        folder.file("out", b"what was there");
        for name in [&out, &link, "/dev/null"] {
            fails(&words(name), 2, &format!("roll: {name}: {why}"));
        }
        assert_eq!(folder.bytes("out"), b"what was there");
        assert!(!Path::new(&nowhere).exists());
        // A name that is free is taken, with the same bytes.
        std::fs::remove_file(&out).unwrap();
        let new = succeeds(&words(&out));
        let whole = folder.bytes("out");
        assert_eq!(succeeds(&with_out(call, &out)), new);
        assert!(folder.bytes("out") == whole, "{call:?}");
    }
    assert_eq!(parts(&folder), [""; 0]);
    // Where it may stand, and where not.
    let picture = folder.path("p.pgm");
    fails(&["--no-clobber", "copy", &picture, &out], 2, why);
    let table = folder.path("t.table");
    for command in ["check", "show", "text"] {
        let text = format!("a command that writes a file, not with `{command}`");
        fails(&[command, &table, "--no-clobber"], 2, &text);
    }
    // Of the sample all stays, and nothing is added.
    let some = folder.path("some");
    std::fs::create_dir(&some).unwrap();
    folder.file("some/board.table", b"what was there");
    let text = format!("{some}/board.table: {why}");
    fails(&["sample", "--no-clobber", &some], 2, &text);
    assert_eq!(names(Path::new(&some)), ["board.table"]);
    assert_eq!(folder.bytes("some/board.table"), b"what was there");
    let new = folder.path("new");
    succeeds(&["sample", "--no-clobber", &new]);
    assert_eq!(names(Path::new(&new)).len(), 7);
}

/// The name is taken while the scan goes on.
#[test]
fn no_clobber_of_a_file_that_comes_later() {
    let (folder, _) = commands("later");
    let strip = folder.bytes("p.pgm");
    let (some, rest) = strip.split_at(strip.len() / 2);
    let scan = Begun::new(&folder, &["--no-clobber"], some, BY_DEFAULT);
    let out = folder.file("out", b"what was there");
    let output = scan.ends(rest);
    told(&output, &format!("{out}: it is there already"));
    assert_eq!(folder.bytes("out"), b"what was there");
    assert_eq!(parts(&folder), [""; 0]);
}

/// A link is written through, wherever it leads; a file keeps its permissions,
/// and a new one has the usual ones.
#[test]
fn links_and_permissions() {
    let (folder, calls) = commands("links");
    let (out, link) = (folder.path("out"), folder.path("links/link"));
    std::fs::create_dir(folder.path("links")).unwrap();
    symlink("../away/file", &link).unwrap();
    let far = folder.path("links/far");
    symlink(&link, &far).unwrap();
    let mode = |name: &str| {
        let there = std::fs::metadata(folder.path(name)).unwrap();
        there.permissions().mode() & 0o7777
    };
    for call in &calls {
        let output = after("umask 027", &with_out(call, &out));
        assert!(output.status.success());
        assert_eq!(mode("out"), 0o640, "{call:?}");
        let whole = folder.bytes("out");
        for kept in [0o600, 0o664, 0o751] {
            let permissions = std::fs::Permissions::from_mode(kept);
            std::fs::set_permissions(&out, permissions).unwrap();
            succeeds(&with_out(call, &out));
            assert_eq!(mode("out"), kept, "{call:?}");
        }
        std::fs::remove_file(&out).unwrap();

        let _ = std::fs::remove_dir_all(folder.path("away"));
        fails(&with_out(call, &far), 2, "links/far: ");
        std::fs::create_dir(folder.path("away")).unwrap();
        // Where the link leads there is nothing, then a file.
        for _ in 0..2 {
            succeeds(&with_out(call, &far));
            assert!(folder.bytes("away/file") == whole, "{call:?}");
            folder.file("away/file", b"what was there");
        }
        assert_eq!(names(&folder.0.join("links")), ["far", "link"]);
        assert_eq!(names(&folder.0.join("away")), ["file"]);
        for link in [&link, &far] {
            assert!(std::fs::symlink_metadata(link).unwrap().is_symlink());
        }
    }
}

/// Names as long as a name may be, and without a folder before them.
#[test]
fn long_and_short_names() {
    let (folder, _) = commands("names");
    let picture = folder.path("p.pgm");
    let long = folder.path(&"n".repeat(255));
    for _ in 0..2 {
        succeeds(&["copy", &picture, &long]);
        assert!(std::fs::read(&long).unwrap() == folder.bytes("copy"));
        let there = format!("cd {}", folder.0.display());
        for name in ["short", "./dotted", "-"] {
            let output = after(&there, &["copy", "p.pgm", name]);
            assert!(output.status.success());
            assert!(folder.bytes(name) == folder.bytes("copy"));
        }
    }
    let (status, _, err) = roll(&["copy", &picture, ""]);
    assert!(status == 2 && err.contains("No such file"), "{err}");
    assert_eq!(parts(&folder), [""; 0]);
}

/// Standard input may be the file that OUT names.
#[test]
fn a_scan_does_not_write_over_its_standard_input() {
    let (folder, _) = commands("standard_input");
    let (table, picture) = (folder.path("t.table"), folder.path("p.pgm"));
    let before = folder.bytes("p.pgm");
    let output = Command::new(PROGRAM)
        .args(["scan", &table, "-", &picture])
        .stdin(std::fs::File::open(&picture).unwrap())
        .output()
        .unwrap();
    told(
        &output,
        &format!("OUT ({picture}) is the file that is read"),
    );
    assert_eq!(folder.bytes("p.pgm"), before);
}
