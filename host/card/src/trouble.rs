//! Why a command did not do its work, as one sentence and an exit status.

use isis::Refusal;
use std::fmt;
use std::process::ExitCode;

/// The reason that a command stops.
#[derive(Debug)]
pub enum Trouble {
    /// The command line is wrong.
    Usage(String),
    /// A file cannot be read or written.
    File(String),
    /// The work is done, but standard output could not be written.
    Output(String),
    /// The library refused the call; the words say what was found.
    Refused(Refusal, String),
    /// The same, in words that say all of it: the refusal's own would mislead.
    Instead(Refusal, String),
}

/// The exit statuses that are no answer of the library, with words.
pub const STATUSES: [(u8, &str); 3] = [
    (64, "the command line is wrong"),
    (66, "a file cannot be read or written"),
    (74, "done, but standard output could not be written"),
];

impl Trouble {
    /// The exit status: the answer number of a refusal, or one of [`STATUSES`].
    pub fn status(&self) -> ExitCode {
        ExitCode::from(match self {
            Trouble::Usage(_) => 64,
            Trouble::File(_) => 66,
            Trouble::Output(_) => 74,
            Trouble::Refused(refusal, _) | Trouble::Instead(refusal, _) => refusal.number() as u8,
        })
    }
}

impl fmt::Display for Trouble {
    fn fmt(&self, f: &mut fmt::Formatter<'_>) -> fmt::Result {
        match self {
            Trouble::Usage(words) | Trouble::File(words) | Trouble::Output(words) => {
                f.write_str(words)
            }
            Trouble::Instead(refusal, words) => {
                write!(f, "refused, answer {}: {words}", refusal.number())
            }
            Trouble::Refused(refusal, found) => {
                write!(f, "refused, answer {}: {refusal}", refusal.number())?;
                match found.as_str() {
                    "" => Ok(()),
                    list if list.starts_with('\n') => write!(f, ":{list}"),
                    words => write!(f, ": {words}"),
                }
            }
        }
    }
}
