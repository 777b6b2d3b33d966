//! A line on standard error for work that takes long, where a person looks on.

use std::io::{IsTerminal, Write};

pub struct Progress {
    shown: bool,
}

impl Progress {
    pub fn new() -> Progress {
        Progress {
            shown: std::io::stderr().is_terminal(),
        }
    }

    /// One that shows nothing.
    pub fn silent() -> Progress {
        Progress { shown: false }
    }

    /// Puts a new text in place of the last.
    pub fn tell(&self, text: &str) {
        if self.shown {
            let mut stderr = std::io::stderr();
            // A lost line of progress is no failure.
            let _ = write!(stderr, "\r\x1b[K{text}");
            let _ = stderr.flush();
        }
    }
}

impl Default for Progress {
    fn default() -> Progress {
        Progress::new()
    }
}

impl Drop for Progress {
    fn drop(&mut self) {
        self.tell("");
    }
}
