//! Why a command was not carried out, its message and its exit status.

use crate::refusal::Refusal;
use crate::text::shown_path;
use std::fmt;
use std::io;
use std::path::Path;

pub const REFUSED: u8 = 1;
pub const WRONG_USAGE: u8 = 2;
pub const IO_FAILED: u8 = 3;

/// Words that are no command, or not its arguments.
#[derive(Clone, Debug, PartialEq, Eq)]
pub struct Usage {
    message: String,
    topic: &'static str,
    /// How the command is written, where a word is missing or superfluous.
    form: Option<&'static str>,
    script_hint: bool,
}

impl Usage {
    /// `topic` is the page of the help that tells more; empty for the first page.
    pub fn new(topic: &'static str, message: impl Into<String>) -> Usage {
        Usage { message: message.into(), topic, form: None, script_hint: false }
    }

    pub fn with_form(self, form: &'static str) -> Usage {
        Usage { form: Some(form), ..self }
    }

    /// In a line of a script, which has not all words of the form.
    pub fn in_script(self) -> Usage {
        Usage { script_hint: self.form.is_some(), ..self }
    }

    pub fn with_script_hint(self) -> Usage {
        Usage { script_hint: true, ..self }
    }
}

impl fmt::Display for Usage {
    fn fmt(&self, f: &mut fmt::Formatter<'_>) -> fmt::Result {
        let gap = if self.topic.is_empty() { "" } else { " " };
        f.write_str(&self.message)?;
        if let Some(form) = self.form {
            write!(f, "; write: {form}")?;
        }
        if self.script_hint {
            f.write_str("; in a script leave out \"ostrubel\" and FILE")?;
        }
        write!(f, " (see: ostrubel help{gap}{})", self.topic)
    }
}

#[derive(Debug)]
pub enum Failure {
    Usage(Usage),
    Refused(Refusal),
    /// What could not be read or written, and the reason.
    Io(String),
    /// Nobody reads what was to be printed.
    Unread,
    /// A failure in a line of a script, counted from 1.
    AtLine(usize, Box<Failure>),
}

impl Failure {
    pub fn io(path: &Path, reason: impl fmt::Display) -> Failure {
        Failure::Io(format!("{}: {reason}", shown_path(path)))
    }

    /// A failure of standard output, after the shelf was saved or where there was nothing to save. That nobody reads
    /// on, as with `ostrubel show .. | head -1`, is told by the exit status alone, and is none where the call was a
    /// saving one.
    pub fn output(saved: bool, error: &io::Error) -> Result<(), Failure> {
        match (error.kind(), saved) {
            (io::ErrorKind::BrokenPipe, true) => Ok(()),
            (io::ErrorKind::BrokenPipe, false) => Err(Failure::Unread),
            _ => {
                let done = if saved { "the call was carried out, but " } else { "" };
                Err(Failure::Io(format!("{done}standard output cannot be written: {error}")))
            }
        }
    }

    /// Whether the exit status says all.
    pub fn is_silent(&self) -> bool {
        matches!(self, Failure::Unread)
    }

    /// Whether it is the failure of a script's line.
    pub fn is_at_line(&self) -> bool {
        matches!(self, Failure::AtLine(..))
    }

    pub fn at_line(self, number: usize) -> Failure {
        Failure::AtLine(number, Box::new(self))
    }

    pub fn exit_status(&self) -> u8 {
        match self {
            Failure::Usage(_) => WRONG_USAGE,
            Failure::Refused(_) => REFUSED,
            Failure::Io(_) | Failure::Unread => IO_FAILED,
            Failure::AtLine(_, failure) => failure.exit_status(),
        }
    }

    fn message(&self) -> String {
        match self {
            Failure::Usage(usage) => usage.to_string(),
            Failure::Refused(refusal) => refusal.to_string(),
            Failure::Io(message) => message.clone(),
            Failure::Unread => "nobody reads the output".to_string(),
            Failure::AtLine(number, failure) => format!("line {number}: {}", failure.message()),
        }
    }
}

/// One line, and for a script another. A refusal and a script's line begin with themselves, all else with the command's
/// name.
impl fmt::Display for Failure {
    fn fmt(&self, f: &mut fmt::Formatter<'_>) -> fmt::Result {
        match self {
            Failure::Refused(_) => f.write_str(&self.message()),
            Failure::AtLine(..) => {
                write!(f, "{}\nNothing of this script was saved; the shelf is as it was.", self.message())
            }
            Failure::Usage(_) | Failure::Io(_) | Failure::Unread => write!(f, "ostrubel: {}", self.message()),
        }
    }
}

impl From<Usage> for Failure {
    fn from(usage: Usage) -> Failure {
        Failure::Usage(usage)
    }
}

impl From<Refusal> for Failure {
    fn from(refusal: Refusal) -> Failure {
        Failure::Refused(refusal)
    }
}
