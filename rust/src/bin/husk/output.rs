//! Standard output, whose reader may go away.

use std::io::{self, BufWriter, ErrorKind, StdoutLock, Write};

use crate::stop::{Outcome, Stop, UNREADABLE};

/// Standard output, to be ended by [`Output::end`].
pub struct Output {
    out: BufWriter<StdoutLock<'static>>,
}

impl Output {
    /// Standard output.
    pub fn new() -> Output {
        Output { out: BufWriter::new(io::stdout().lock()) }
    }

    /// Some text, or bytes.
    pub fn text(&mut self, text: impl AsRef<[u8]>) -> Outcome<()> {
        self.out.write_all(text.as_ref()).map_err(lost)
    }

    /// A line: its fields, tab-parted.
    pub fn line(&mut self, fields: &[&str]) -> Outcome<()> {
        self.text(fields.join("\t"))?;
        self.text("\n")
    }

    /// What was written so far can be seen.
    pub fn flush(&mut self) -> Outcome<()> {
        self.out.flush().map_err(lost)
    }

    /// Everything was written, or that is told.
    pub fn end(mut self) -> Outcome<()> {
        self.flush()
    }
}

fn lost(error: io::Error) -> Stop {
    match error.kind() {
        ErrorKind::BrokenPipe => Stop::unheard(),
        _ => Stop { status: UNREADABLE, message: Some(format!("standard output: {error}")) },
    }
}
