//! The options that many commands share, and that are not a call's own.

use crate::arguments::Arguments;
use crate::commands::Command;
use crate::failure::{Failure, Usage};
use crate::labels::Labels;
use crate::locked_file::Saving;
use crate::look::Look;
use std::cell::OnceCell;
use std::ffi::OsString;
use std::time::Duration;

/// Those that a line of a script has not: they are for `run` itself.
pub const NOT_FOR_LINES: [&str; 6] = ["--dry-run", "--wait", "--names", "--json", "--svg", "--html"];

pub struct Settings {
    pub saving: Saving,
    pub json: bool,
    names: Option<OsString>,
    /// What the file of names has. It is read once: a pipe is empty then.
    labels: OnceCell<Labels>,
}

impl Settings {
    /// Takes the options that the command has.
    pub fn take(command: Command, arguments: &mut Arguments) -> Result<Settings, Usage> {
        let options = command.options();
        let has = |name| options.contains(&name);
        let saving = Saving {
            dry_run: has("--dry-run") && arguments.flag("--dry-run"),
            patience: if has("--wait") { arguments.parsed("--wait", parse_seconds)? } else { None },
        };
        Ok(Settings {
            saving,
            json: has("--json") && arguments.flag("--json"),
            names: if has("--names") { arguments.file_option("--names") } else { None },
            labels: OnceCell::new(),
        })
    }

    /// The names, where a file of them is given.
    pub fn labels(&self) -> Result<Option<&Labels>, Failure> {
        match (&self.names, self.labels.get()) {
            (Some(names), None) => {
                let read = Labels::read(names)?;
                Ok(Some(self.labels.get_or_init(|| read)))
            }
            (_, labels) => Ok(labels),
        }
    }

    pub fn look(&self) -> Result<Look, Failure> {
        Ok(Look::new(self.labels()?.cloned().unwrap_or_default(), self.json))
    }

    /// Nothing is written, so there are no options about it: they go with something else.
    pub fn check_only_read(&self, with: &str) -> Result<(), String> {
        if self.saving != Saving::default() {
            return Err(format!("--dry-run and --wait go with {with}"));
        }
        Ok(())
    }

    /// Standard input, which is `-`, is read once: for the names, or for one of these files.
    pub fn check_input(&self, files: &[OsString]) -> Result<(), String> {
        if self.names.iter().chain(files).filter(|file| *file == "-").count() > 1 {
            return Err("standard input, which is -, can be read only once".to_string());
        }
        Ok(())
    }
}

fn parse_seconds(text: &str) -> Result<Duration, String> {
    let seconds = text.parse::<u32>().map_err(|_| format!("{text:?} is no whole number of seconds"))?;
    Ok(Duration::from_secs(seconds.into()))
}
