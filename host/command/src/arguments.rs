//! The words after a command's name: plain arguments in their order, and options anywhere between them. Behind the word
//! `--` all are plain.

use crate::commands::Command;
use crate::failure::Usage;
use crate::help;
use crate::names::Whole;
use std::ffi::{OsStr, OsString};
use std::path::PathBuf;

const WITH_VALUE: [&str; 17] = [
    "--mask",
    "--accum",
    "--semiring",
    "--monoid",
    "--op",
    "--first",
    "--second",
    "--scalar",
    "--rows",
    "--cols",
    "--wait",
    "--names",
    "--svg",
    "--html",
    "--format",
    "--places",
    "--to",
];
const WITHOUT_VALUE: [&str; 10] = [
    "--replace",
    "--complement",
    "--structural",
    "--transpose-a",
    "--transpose-b",
    "--position",
    "--json",
    "--picture",
    "--revision",
    "--dry-run",
];

/// Whether a value stands behind an option.
pub fn has_value(option: &str) -> bool {
    WITH_VALUE.contains(&option)
}

#[derive(Debug)]
pub struct Arguments {
    command: Command,
    /// Those after FILE.
    plain: Vec<OsString>,
    /// Those that have not been taken yet. One without a value has no text.
    options: Vec<(String, OsString)>,
}

impl Arguments {
    /// Takes the words of a script's line apart. There are as many plain arguments as the command has, and no option
    /// stands twice.
    pub fn split(command: Command, words: &[OsString]) -> Result<Arguments, Usage> {
        let arguments = Arguments::collect(command, words)?;
        arguments.check_count()?;
        Ok(arguments)
    }

    /// The same for a command line, whose first plain argument is FILE.
    pub fn split_with_file(command: Command, words: &[OsString]) -> Result<(PathBuf, Arguments), Usage> {
        let mut arguments = Arguments::collect(command, words)?;
        if arguments.plain.is_empty() {
            let name = command.file().unwrap_or_default();
            return Err(arguments.wrong_form(format!("{name} is missing")));
        }
        let file = PathBuf::from(arguments.plain.remove(0));
        arguments.check_count()?;
        Ok((file, arguments))
    }

    fn collect(command: Command, words: &[OsString]) -> Result<Arguments, Usage> {
        let mut arguments = Arguments { command, plain: Vec::new(), options: Vec::new() };
        let mut words = words.iter();
        while let Some(word) = words.next() {
            let text = word.to_string_lossy();
            if text == "--" {
                arguments.plain.extend(words.by_ref().cloned());
            } else if text.starts_with("--") {
                let option = arguments.split_option(&text, &mut words)?;
                arguments.add_option(option)?;
            } else {
                arguments.plain.push(word.clone());
            }
        }
        Ok(arguments)
    }

    /// `--mask 2` and `--mask=2` are the same.
    fn split_option<'a>(
        &self,
        word: &str,
        rest: &mut impl Iterator<Item = &'a OsString>,
    ) -> Result<(String, OsString), Usage> {
        let (name, joined) = match word.split_once('=') {
            Some((name, value)) => (name, Some(OsString::from(value))),
            None => (word, None),
        };
        if WITHOUT_VALUE.contains(&name) {
            match joined {
                None => Ok((name.to_string(), OsString::new())),
                Some(_) => Err(self.wrong(format!("{name} takes no value"))),
            }
        } else if WITH_VALUE.contains(&name) {
            let is_option = |value: &&OsString| value.to_string_lossy().starts_with("--");
            match joined.or_else(|| rest.next().filter(|value| !is_option(value)).cloned()) {
                Some(value) => Ok((name.to_string(), value)),
                None => Err(self.wrong(format!("{name} wants a value behind it"))),
            }
        } else {
            Err(self.no_option(name))
        }
    }

    fn add_option(&mut self, option: (String, OsString)) -> Result<(), Usage> {
        if self.options.iter().any(|(name, _)| *name == option.0) {
            return Err(self.wrong(format!("{} is given twice", option.0)));
        }
        self.options.push(option);
        Ok(())
    }

    fn check_count(&self) -> Result<(), Usage> {
        let names = self.command.arguments();
        let most = if names.last().is_some_and(|name| name.ends_with("..")) { usize::MAX } else { names.len() };
        match (names.get(self.plain.len()), self.plain.get(most)) {
            (Some(missing), _) => Err(self.wrong_form(format!("{missing} is missing"))),
            (None, Some(word)) => Err(self.wrong_form(format!("{word:?} is one word too many"))),
            (None, None) => Ok(()),
        }
    }

    /// A usage error of this command.
    pub fn wrong(&self, message: impl AsRef<str>) -> Usage {
        let name = self.command.name();
        Usage::new(name, format!("{name}: {}", message.as_ref()))
    }

    /// The same for a missing or superfluous word.
    fn wrong_form(&self, message: impl AsRef<str>) -> Usage {
        self.wrong(message).with_form(help::form(self.command))
    }

    fn no_option(&self, name: &str) -> Usage {
        self.wrong(format!("{name} is no option of {}", self.command.name()))
    }

    /// A plain argument, counted from 0, that is a place, a row or column, or a count.
    pub fn whole(&self, position: usize) -> Result<Whole, Usage> {
        let (name, word) = self.plain_at(position)?;
        self.parse_whole(name, &word.to_string_lossy())
    }

    /// A plain argument that is a cell's value.
    pub fn value(&self, position: usize) -> Result<i32, Usage> {
        let (name, word) = self.plain_at(position)?;
        self.parse_value(name, &word.to_string_lossy())
    }

    /// A plain argument as it stands.
    pub fn word(&self, position: usize) -> Result<OsString, Usage> {
        Ok(self.plain_at(position)?.1.to_os_string())
    }

    /// The plain arguments from one on.
    pub fn words_from(&self, position: usize) -> Vec<OsString> {
        self.plain.iter().skip(position).cloned().collect()
    }

    fn plain_at(&self, position: usize) -> Result<(&'static str, &OsStr), Usage> {
        match (self.command.arguments().get(position), self.plain.get(position)) {
            (Some(name), Some(word)) => Ok((name, word)),
            _ => Err(self.wrong("an argument is missing")),
        }
    }

    fn parse_whole(&self, name: &str, text: &str) -> Result<Whole, Usage> {
        Whole::parse(text).ok_or_else(|| self.wrong(format!("{name} is a whole number, and not {text:?}")))
    }

    fn parse_value(&self, name: &str, text: &str) -> Result<i32, Usage> {
        let range = format!("{name} is a whole number from {} to {}", i32::MIN, i32::MAX);
        text.parse().map_err(|_| self.wrong(format!("{range}, and not {text:?}")))
    }

    /// Takes an option's value, as text.
    pub fn option(&mut self, name: &str) -> Option<String> {
        Some(self.file_option(name)?.to_string_lossy().into_owned())
    }

    /// Takes an option's value, which is a file's name.
    pub fn file_option(&mut self, name: &str) -> Option<OsString> {
        let position = self.options.iter().position(|(given, _)| given == name)?;
        Some(self.options.remove(position).1)
    }

    /// Takes an option without a value.
    pub fn flag(&mut self, name: &str) -> bool {
        self.option(name).is_some()
    }

    /// Takes an option whose value is read by `parse`.
    pub fn parsed<T>(&mut self, name: &str, parse: fn(&str) -> Result<T, String>) -> Result<Option<T>, Usage> {
        let value = self.option(name).map(|text| parse(&text)).transpose();
        value.map_err(|message| self.wrong(format!("{name}: {message}")))
    }

    /// The same for an option that has to be there.
    pub fn required<T>(&mut self, name: &str, parse: fn(&str) -> Result<T, String>) -> Result<T, Usage> {
        self.parsed(name, parse)?.ok_or_else(|| self.wrong_form(format!("{name} is missing")))
    }

    /// Takes an option that is a place.
    pub fn whole_option(&mut self, name: &str) -> Result<Option<Whole>, Usage> {
        self.option(name).map(|text| self.parse_whole(name, &text)).transpose()
    }

    /// Takes an option that is a value.
    pub fn value_option(&mut self, name: &str) -> Result<Option<i32>, Usage> {
        self.option(name).map(|text| self.parse_value(name, &text)).transpose()
    }

    /// All options have been taken.
    pub fn finish(self) -> Result<(), Usage> {
        match self.options.first() {
            Some((name, _)) => Err(self.no_option(name)),
            None => Ok(()),
        }
    }
}
