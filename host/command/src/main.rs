//! The command `ostrubel`: a store of eight matrices kept in a file, in the words of its users: a matrix is a sheet, a
//! store is a shelf, and a slot is a place on it.
//!
//! `task` reads the command line, `commands`, `arguments`, `settings`, `names` and `call` what stands in it; `carry_out`
//! does a call on a store in memory, `script` many of them, `merge` the sheets of files. `shelf_file` reads and saves a
//! store, by `guard` and `form` what is in the file, by `locked_file`, `new_file` and `replacing` how it is replaced.
//! `sheet_file` carries one matrix in or out, by `format`, `csv` and `matrix_market`. `view`, `picture`, `changes`,
//! `drawing` and `json` show what is there, by `look` and `labels`; `refusal` and `failure` say why something was not
//! done. `help`, `completions` and `manual` have one source. All rules about matrices are the library's.
//!
//! The exit status is 0, or 1 for a refused call, 2 for wrong usage, 3 where a file or the output cannot be read or
//! written.

#![deny(unsafe_code)]

mod arguments;
mod call;
mod carry_out;
mod changes;
mod commands;
mod completions;
mod csv;
mod day;
mod drawing;
mod failure;
mod form;
mod format;
mod guard;
mod help;
mod json;
mod labels;
mod locked_file;
mod look;
mod manual;
mod matrix_market;
mod merge;
mod names;
mod new_file;
mod output;
mod picture;
mod refusal;
mod replacing;
mod script;
mod settings;
mod sheet_file;
mod shelf_file;
#[cfg(target_os = "linux")]
#[allow(unsafe_code)]
mod system;
#[cfg(not(target_os = "linux"))]
#[path = "system_elsewhere.rs"]
mod system;
mod task;
#[cfg(test)]
mod test_folder;
mod text;
mod view;

use failure::{Failure, WRONG_USAGE};
use output::{complain, Output};
use std::ffi::OsString;
use std::process::ExitCode;
use task::Task;

fn main() -> ExitCode {
    let words: Vec<OsString> = std::env::args_os().skip(1).collect();
    if words.is_empty() {
        complain(&help::overview());
        return ExitCode::from(WRONG_USAGE);
    }
    match carry_out(&words) {
        Ok(()) => ExitCode::SUCCESS,
        Err(failure) => {
            if !failure.is_silent() {
                complain(&failure.to_string());
            }
            ExitCode::from(failure.exit_status())
        }
    }
}

fn carry_out(words: &[OsString]) -> Result<(), Failure> {
    let task = Task::parse(words)?;
    let mut output = Output::new();
    match task.carry_out(&mut output) {
        Ok(saved) => output.write().or_else(|error| Failure::output(saved, &error)),
        Err(failure) => {
            // A script tells how far it came. The failure is more important than one of the output.
            if failure.is_at_line() {
                let _ = output.write();
            }
            Err(failure)
        }
    }
}
