//! Why a command ends before its time, and with which exit status.

use std::path::Path;

use huskcanyon::Refusal;

use crate::input;
use crate::record::Fault;

/// Refused by number, without a scale, or not the same.
pub const REFUSED: u8 = 1;
const USAGE: u8 = 2;
/// A file that cannot be read or written, or is not what it should be.
pub const UNREADABLE: u8 = 3;

/// The exit status, and what is told on standard error.
pub struct Stop {
    /// The exit status.
    pub status: u8,
    /// Nothing is told where the reader of the output has gone.
    pub message: Option<String>,
}

/// What a command, or a part of it, comes to.
pub type Outcome<T> = Result<T, Stop>;

impl Stop {
    /// Bad usage.
    pub fn usage(message: impl Into<String>) -> Stop {
        Stop { status: USAGE, message: Some(message.into()) }
    }

    /// A file that cannot be read or written, or is not what it should be.
    pub fn file(path: &Path, why: impl std::fmt::Display) -> Stop {
        Stop { status: UNREADABLE, message: Some(format!("{}: {why}", input::name(path))) }
    }

    /// A line of a file that is not what it should be.
    pub fn line(path: &Path, line: u64, why: impl std::fmt::Display) -> Stop {
        Stop { status: UNREADABLE, message: Some(format!("{}:{line}: {why}", input::name(path))) }
    }

    /// A refusal by number, of what was asked of a sheet.
    pub fn refused(path: &Path, message: impl std::fmt::Display) -> Stop {
        Stop { status: REFUSED, message: Some(format!("{}: {message}", input::name(path))) }
    }

    /// A sheet that load refuses. Its first line is line `first` of the file.
    pub fn sheet(path: &Path, sheet: &[u8], first: u64, refusal: Refusal) -> Stop {
        let place = input::line_of(refusal).map_or_else(String::new, |line| format!(":{}", line + first - 1));
        Stop { status: REFUSED, message: Some(format!("{}{place}: {}", input::name(path), input::refusal_in_words(sheet, first, refusal))) }
    }

    /// A record that cannot be read.
    pub fn damaged(path: &Path, fault: Fault) -> Stop {
        match fault.line {
            0 => Stop::file(path, fault.why),
            line => Stop::line(path, line, fault.why),
        }
    }

    /// The reader of the output has gone.
    pub fn unheard() -> Stop {
        Stop { status: UNREADABLE, message: None }
    }

    /// Bad usage of a command says where its usage stands.
    pub fn in_command(self, name: &str) -> Stop {
        let message = if self.status == USAGE { self.message.map(|text| format!("{text}\n`husk {name} --help` says how it is used")) } else { self.message };
        Stop { status: self.status, message }
    }
}
