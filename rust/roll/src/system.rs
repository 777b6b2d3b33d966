//! What is asked of the system beyond the standard library: that a signal which
//! ends the tool leaves no unfinished file behind, that a file past its limit is
//! a failure, and whether standard output was closed well.

use std::ffi::{c_char, c_int, CString};
use std::io::{Error, Result};
use std::os::fd::{AsFd, IntoRawFd};
use std::os::unix::ffi::OsStrExt;
use std::path::Path;
use std::ptr::null_mut;
use std::sync::atomic::{AtomicBool, AtomicI32, AtomicPtr, AtomicU32, Ordering::SeqCst};

// Functions of the C library that every Unix program is linked with. A handler
// is the address of an `extern "C" fn(c_int)`, or one of the two numbers below.
// `signal`, `raise` and `unlink` are among those that a handler may call.
extern "C" {
    fn signal(number: c_int, handler: usize) -> usize;
    fn raise(number: c_int) -> c_int;
    fn unlink(path: *const c_char) -> c_int;
    fn close(descriptor: c_int) -> c_int;
}

const BY_DEFAULT: usize = 0;
const IGNORED: usize = 1;

const SIGHUP: c_int = 1;
const SIGINT: c_int = 2;
const SIGTERM: c_int = 15;
/// A file would grow past the limit that `ulimit -f` sets.
const SIGXFSZ: c_int = 25;

/// For the start of the program. A signal that is ignored already stays so, as
/// `nohup` wants it. Writing past a file's limit fails, and no signal comes.
pub fn prepare_signals() {
    let handler = end as extern "C" fn(c_int) as usize;
    // Safe: the handler calls only what a handler may call.
    unsafe {
        signal(SIGXFSZ, IGNORED);
        for number in [SIGHUP, SIGINT, SIGTERM] {
            if signal(number, IGNORED) != IGNORED {
                signal(number, handler);
            }
        }
    }
}

/// A file that a signal which ends the tool is to remove, in the list of all. It
/// is never freed, since a handler may be looking at it; a command has few.
pub struct Unwanted {
    path: CString,
    there: AtomicBool,
    before: Option<&'static Unwanted>,
}

/// The last of the list.
static LAST: AtomicPtr<Unwanted> = AtomicPtr::new(null_mut());

/// How many holds there are, and the signal that waits for their end, or 0.
static HOLDS: AtomicU32 = AtomicU32::new(0);
static WAITING: AtomicI32 = AtomicI32::new(0);

/// Removes what is unwanted and ends the tool by the same signal, which is then
/// its exit status.
extern "C" fn end(number: c_int) {
    if HOLDS.load(SeqCst) > 0 {
        WAITING.store(number, SeqCst);
        return;
    }
    // Safe: what the list has is never freed.
    let mut next = unsafe { LAST.load(SeqCst).as_ref() };
    while let Some(file) = next {
        if file.is_there() {
            // Safe: so is its path.
            unsafe { unlink(file.path.as_ptr()) };
        }
        next = file.before;
    }
    // Safe: the signal comes once this has returned.
    unsafe {
        signal(number, BY_DEFAULT);
        raise(number);
    }
}

impl Unwanted {
    /// A file that is not there yet.
    pub fn new(path: &Path) -> Result<&'static Unwanted> {
        let file = Box::into_raw(Box::new(Unwanted {
            path: CString::new(path.as_os_str().as_bytes())?,
            there: AtomicBool::new(false),
            before: None,
        }));
        let mut before = LAST.load(SeqCst);
        loop {
            // Safe: what the list has is never freed, and nobody else knows of
            // this file before it is there.
            unsafe { (*file).before = before.as_ref() };
            match LAST.compare_exchange(before, file, SeqCst, SeqCst) {
                // Safe: as above.
                Ok(_) => return Ok(unsafe { &*file }),
                Err(other) => before = other,
            }
        }
    }

    pub fn set_there(&self, there: bool) {
        self.there.store(there, SeqCst);
    }

    pub fn is_there(&self) -> bool {
        self.there.load(SeqCst)
    }
}

/// While there is one, a signal that would end the tool waits.
pub struct Hold(());

pub fn hold() -> Hold {
    HOLDS.fetch_add(1, SeqCst);
    Hold(())
}

impl Drop for Hold {
    fn drop(&mut self) {
        if HOLDS.fetch_sub(1, SeqCst) == 1 {
            let number = WAITING.swap(0, SeqCst);
            if number != 0 {
                // Safe: the handler does the rest.
                unsafe { raise(number) };
            }
        }
    }
}

/// Whether all that was written to standard output has arrived; some systems
/// tell a failure only when a file is closed.
pub fn close_standard_output() -> Result<()> {
    // The failure is told at any of a file's descriptors.
    let another = std::io::stdout().as_fd().try_clone_to_owned()?;
    // Safe: nobody else has this descriptor.
    match unsafe { close(another.into_raw_fd()) } {
        0 => Ok(()),
        _ => Err(Error::last_os_error()),
    }
}
