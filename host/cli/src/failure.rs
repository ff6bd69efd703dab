//! Why a command did not do what it was asked.

use crate::words::one_line;
use std::fmt;
use std::path::Path;

/// Why a command failed.
#[derive(Debug)]
pub enum Failure {
    /// The library refused; with what is to be said of it.
    Refused(czi::Refusal, Option<String>),
    /// The library refused, and other words than its own say what was wrong.
    Worded(czi::Refusal, String),
    /// A bad argument.
    Usage(String),
    /// A bad argument of that command.
    UsageOf(String, String),
    /// A file can't be read or written, or memory is short.
    Other(String),
}

impl Failure {
    /// The exit code.
    pub fn code(&self) -> u8 {
        match self {
            Failure::Refused(..) | Failure::Worded(..) => 2,
            Failure::Usage(_) | Failure::UsageOf(..) | Failure::Other(_) => 1,
        }
    }

    /// The one line that is said, whatever characters a name has.
    pub fn line(&self) -> String {
        let more = match self.code() {
            2 => "; czi help refusals says more",
            _ => "",
        };
        format!("czi: {}{more}\n", one_line(&self.to_string()))
    }

    /// The same; a bad argument is one of that command.
    pub fn of_command(self, name: &str) -> Failure {
        match self {
            Failure::Usage(what) => Failure::UsageOf(what, name.to_string()),
            other => other,
        }
    }

    /// Something is wrong with that file.
    pub fn of(path: &Path, what: impl fmt::Display) -> Failure {
        Failure::Other(format!("{}: {what}", path.display()))
    }
}

impl From<czi::Refusal> for Failure {
    fn from(refusal: czi::Refusal) -> Failure {
        Failure::Refused(refusal, None)
    }
}

impl fmt::Display for Failure {
    fn fmt(&self, f: &mut fmt::Formatter<'_>) -> fmt::Result {
        match self {
            Failure::Refused(refusal, None) => write!(f, "{refusal}"),
            Failure::Refused(refusal, Some(more)) => write!(f, "{refusal} ({more})"),
            Failure::Worded(refusal, words) => {
                let (number, place) = (refusal.reason.number(), refusal.place);
                write!(f, "refused {number} at {place}: {words}")
            }
            Failure::Usage(what) => write!(f, "{what} (czi help says how it is called)"),
            Failure::UsageOf(what, name) => {
                write!(f, "{what} (czi help {name} says how it is called)")
            }
            Failure::Other(what) => write!(f, "{what}"),
        }
    }
}
