//! Scripts: calls one to a line, without FILE, carried out all or none.
//!
//! Blank lines are skipped. A line whose first letter is `#` is printed as it stands.

use crate::arguments::Arguments;
use crate::call::Call;
use crate::carry_out::carry_out;
use crate::commands::Command;
use crate::failure::{Failure, Usage};
use crate::look::Look;
use crate::output::Output;
use crate::settings;
use crate::sheet_file;
use ostrubel::Store;
use std::ffi::{OsStr, OsString};

/// The longest script: some 50,000 calls.
pub const MAX_BYTES: usize = 1 << 20;

/// The most that a script prints, which is kept in memory until the shelf is saved.
pub const MAX_PRINTED_BYTES: usize = 16 << 20;

pub struct Script {
    lines: Vec<Line>,
}

struct Line {
    /// Counted from 1.
    number: usize,
    text: String,
    step: Step,
}

enum Step {
    Comment,
    Call(Call),
    /// A line that is no call. What stands before it is carried out first, since it may be refused.
    Wrong(Usage),
}

impl Script {
    /// Reads a file, or standard input where the name is `-`.
    pub fn read(source: &OsStr) -> Result<Script, Failure> {
        let (_, bytes) = sheet_file::bytes(source, MAX_BYTES)?;
        if bytes.len() > MAX_BYTES {
            return Err(Usage::new("run", format!("run: a script has at most {MAX_BYTES} bytes")).into());
        }
        match String::from_utf8(bytes) {
            Ok(text) => Ok(Script::parse(&text)),
            Err(_) => Err(Usage::new("run", "run: the script is not text in UTF-8").into()),
        }
    }

    fn parse(text: &str) -> Script {
        let text = text.strip_prefix('\u{feff}').unwrap_or(text);
        let lines = text.lines().enumerate().filter(|(_, line)| !line.trim().is_empty());
        let line = |(position, line): (usize, &str)| Line {
            number: position + 1,
            text: line.to_string(),
            step: parse_line(line.trim()),
        };
        Script { lines: lines.map(line).collect() }
    }

    /// Whether it has a call that can change the store.
    pub fn writes(&self) -> bool {
        self.lines.iter().any(|line| matches!(&line.step, Step::Call(call) if call.writes()))
    }

    /// Carries out the calls on a store in memory, and stops at the first that is refused or wrong.
    pub fn carry_out(&self, store: &mut Store, look: &Look, output: &mut Output) -> Result<(), Failure> {
        for line in &self.lines {
            line.carry_out(store, look, output).map_err(|failure| failure.at_line(line.number))?;
        }
        Ok(())
    }
}

impl Line {
    fn carry_out(&self, store: &mut Store, look: &Look, output: &mut Output) -> Result<(), Failure> {
        match &self.step {
            Step::Comment => output.print(&self.text),
            Step::Call(call) => {
                self.echo(output);
                output.show(&carry_out(call, store, look)?);
            }
            Step::Wrong(usage) => {
                self.echo(output);
                return Err(usage.clone().into());
            }
        }
        if output.size() > MAX_PRINTED_BYTES {
            return Err(Failure::Io(format!("this script prints too much: more than {MAX_PRINTED_BYTES} bytes")));
        }
        Ok(())
    }

    fn echo(&self, output: &mut Output) {
        output.print(&format!("> {}", self.text.trim()));
    }
}

fn parse_line(line: &str) -> Step {
    if line.starts_with('#') {
        return Step::Comment;
    }
    let mut words = line.split_whitespace();
    let name = words.next().unwrap_or_default();
    let call = match Command::find(name) {
        Some(command) if !command.is_for_scripts() => Err(Usage::new("run", format!("{name} is not for scripts"))),
        Some(command) => {
            let words: Vec<OsString> = words.map(OsString::from).collect();
            let is_setting = |word: &&OsString| settings::NOT_FOR_LINES.iter().any(|name| *word == name);
            if let Some(option) = words.iter().find(is_setting) {
                let option = option.to_string_lossy();
                return Step::Wrong(Usage::new("run", format!("{option} is not for a line of a script")));
            }
            let arguments = Arguments::split(command, &words);
            arguments.and_then(|arguments| Call::parse(command, arguments)).map_err(Usage::in_script)
        }
        None if name.eq_ignore_ascii_case("ostrubel") => {
            Err(Usage::new("run", format!("no command {name:?}")).with_script_hint())
        }
        None => Err(Usage::new("", format!("no command {name:?}"))),
    };
    match call {
        Ok(call) => Step::Call(call),
        Err(usage) => Step::Wrong(usage),
    }
}
