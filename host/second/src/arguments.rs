//! The options that a program is given, for the programs that check and measure. Which there are is said by the usage
//! text alone: a line of it that begins with `  --name` is an option, with a value where a word in capitals follows.

use std::process::ExitCode;
use std::str::FromStr;

/// The options that were given, each with its value if it has one. Of one that is given twice the last counts.
pub struct Arguments {
    given: Vec<(String, Option<String>)>,
}

impl Arguments {
    fn parse(usage: &str, mut words: impl Iterator<Item = String>) -> Result<Arguments, String> {
        let mut given = Vec::new();
        while let Some(name) = words.next() {
            let value = match takes_value(usage, &name).ok_or_else(|| format!("{name} is no option\n\n{usage}"))? {
                true => Some(words.next().ok_or_else(|| format!("{name} wants a value"))?),
                false => None,
            };
            given.push((name, value));
        }
        Ok(Arguments { given })
    }

    pub fn has(&self, name: &str) -> bool {
        self.given.iter().any(|(given, _)| given == name)
    }

    pub fn text(&self, name: &str) -> Option<&str> {
        self.given.iter().rev().find(|(given, _)| given == name)?.1.as_deref()
    }

    pub fn number<N: FromStr>(&self, name: &str) -> Result<Option<N>, String> {
        let parsed =
            self.text(name).map(|text| text.parse().map_err(|_| format!("{name} wants a number and not {text}")));
        parsed.transpose()
    }
}

/// Whether the usage has an option of this name, and if so, whether it takes a value.
fn takes_value(usage: &str, name: &str) -> Option<bool> {
    let line = usage.lines().filter_map(|line| line.strip_prefix("  --")).find_map(|line| {
        let mut words = line.split_whitespace();
        (words.next() == name.strip_prefix("--")).then(|| words.next())
    })?;
    Some(line.is_some_and(|word| word.chars().all(|letter| letter.is_ascii_uppercase())))
}

/// Runs a program on what it was given. With `--help` the usage is printed instead. An error is printed: status 2.
pub fn run(usage: &str, program: impl FnOnce(&Arguments) -> Result<ExitCode, String>) -> ExitCode {
    let words = || std::env::args().skip(1);
    if words().any(|word| word == "--help") {
        println!("{usage}");
        return ExitCode::SUCCESS;
    }
    Arguments::parse(usage, words()).and_then(|arguments| program(&arguments)).unwrap_or_else(|text| {
        eprintln!("{text}");
        ExitCode::from(2)
    })
}

#[cfg(test)]
mod tests {
    use super::Arguments;

    const USAGE: &str = "program [--seed N] [--faults]\n\nDoes it.\n  --seed N   the seed\n  --faults   plants --none";

    fn parse(words: &[&str]) -> Result<Arguments, String> {
        Arguments::parse(USAGE, words.iter().map(|word| word.to_string()))
    }

    #[test]
    fn options_are_those_of_the_usage() -> Result<(), String> {
        let given = parse(&["--faults", "--seed", "1", "--seed", "7"])?;
        assert_eq!((given.number("--seed")?, given.has("--faults")), (Some(7), true));
        let none = parse(&[])?;
        assert_eq!((none.number::<u64>("--seed")?, none.has("--faults")), (None, false));
        for words in [&["--none"][..], &["--"], &["seed", "1"], &["--seeds", "1"], &["--faults", "1"]] {
            assert!(parse(words).is_err_and(|text| text.contains("is no option") && text.contains(USAGE)), "{words:?}");
        }
        Ok(())
    }

    #[test]
    fn values_are_there_and_are_numbers() -> Result<(), String> {
        assert_eq!(parse(&["--seed"]).err().as_deref(), Some("--seed wants a value"));
        let number = parse(&["--seed", "x"])?.number::<u64>("--seed");
        assert_eq!(number, Err("--seed wants a number and not x".to_string()));
        Ok(())
    }
}
