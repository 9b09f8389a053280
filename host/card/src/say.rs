//! What the command says. A sentence that cannot be written is lost and nothing else is:
//! no message ends the work.

use crate::trouble::Trouble;
use std::fmt::Display;
use std::io::{self, BufWriter, StdoutLock, Write};

/// Says a sentence on standard error.
pub fn tell(words: impl Display) {
    let line = format!("card: {words}\n");
    let _ = io::stderr().write_all(line.as_bytes());
}

/// Prints on standard output.
pub fn print(text: &str) -> Result<(), Trouble> {
    let mut lines = Lines::new();
    lines.add(text);
    lines.end()
}

/// Text for standard output. Once some of it could not be written, no more is tried.
pub struct Lines {
    out: BufWriter<StdoutLock<'static>>,
    written: io::Result<()>,
}

impl Lines {
    /// Nothing yet.
    pub fn new() -> Lines {
        Lines {
            out: BufWriter::new(io::stdout().lock()),
            written: Ok(()),
        }
    }

    /// Adds some text.
    pub fn add(&mut self, text: impl Display) {
        if self.written.is_ok() {
            self.written = write!(self.out, "{text}");
        }
    }

    /// Whether nobody gets what is added.
    pub fn are_lost(&self) -> bool {
        self.written.is_err()
    }

    /// What became of the text. A reader that went away is no trouble.
    pub fn end(mut self) -> Result<(), Trouble> {
        match self.written.and_then(|()| self.out.flush()) {
            Err(why) if why.kind() != io::ErrorKind::BrokenPipe => Err(Trouble::Output(format!(
                "standard output cannot be written: {why}"
            ))),
            _ => Ok(()),
        }
    }

    /// The same of a command's last text: where it has trouble of its own, that of the text is
    /// only told.
    pub fn end_after(self, done: Result<(), Trouble>) -> Result<(), Trouble> {
        match (done, self.end()) {
            (Ok(()), printed) => printed,
            (Err(trouble), printed) => {
                printed.unwrap_or_else(tell);
                Err(trouble)
            }
        }
    }
}
