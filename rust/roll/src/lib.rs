//! The tool `roll`: width tables, 9/7 coefficients and exact 5/3 copies of
//! scanned roll pictures, from the command line.
//!
//! Exit status: 0 done, 1 refused by the engine, 2 a wrong command line, files
//! that do not go together, or one that cannot be read, written or understood.

pub mod container;
pub mod pgm;
pub mod png;
pub mod progress;
pub mod sample;
pub mod show;
pub mod suggest;
pub mod system;
pub mod text;

mod command;
mod whole;

pub use command::run;

use std::fmt;

/// A number and what it counts, as `1 level` or `2 levels`.
fn counted(number: impl Into<u64>, what: &str) -> String {
    let number = number.into();
    let end = if number == 1 { "" } else { "s" };
    format!("{number} {what}{end}")
}

/// Why a command was not done.
#[derive(Debug, PartialEq, Eq)]
pub enum Failure {
    /// The engine refused; the text names file and refusal.
    Refused(String),
    /// A file cannot be read, written or understood, or does not go with
    /// another.
    File(String),
    /// The command line is wrong.
    Usage(String),
}

impl Failure {
    pub fn status(&self) -> u8 {
        match self {
            Failure::Refused(_) => 1,
            Failure::File(_) | Failure::Usage(_) => 2,
        }
    }
}

impl fmt::Display for Failure {
    fn fmt(&self, f: &mut fmt::Formatter<'_>) -> fmt::Result {
        match self {
            Failure::Refused(text) | Failure::File(text) => write!(f, "{text}"),
            Failure::Usage(text) => write!(f, "{text} (`roll --help` tells more)"),
        }
    }
}
