//! Scripts that have a shell complete the command's words. Commands, options and what they are about come from the
//! help.

use crate::arguments::has_value;
use crate::commands::Command;
use crate::format::Format;
use crate::help;
use ostrubel::{BinaryOp, IndexUnaryOp, Monoid, SelectOp, UnaryOp, SLOTS};

#[derive(Clone, Copy, Debug, PartialEq, Eq)]
pub enum Shell {
    Bash,
    Zsh,
    Fish,
}

impl Shell {
    pub fn parse(text: &str) -> Result<Shell, String> {
        match text.to_lowercase().as_str() {
            "bash" => Ok(Shell::Bash),
            "zsh" => Ok(Shell::Zsh),
            "fish" => Ok(Shell::Fish),
            _ => Err(format!("no shell {text:?}: there are bash, zsh, fish")),
        }
    }
}

pub fn script(shell: Shell) -> String {
    match shell {
        Shell::Bash => bash(),
        Shell::Zsh => zsh(),
        Shell::Fish => fish(),
    }
}

/// What may stand behind an option.
enum Values {
    Files,
    Words(Vec<String>),
    /// A number, or what cannot be listed.
    Any,
}

fn values(option: &str) -> Values {
    let lower = |names: Vec<&str>| Values::Words(names.into_iter().map(str::to_lowercase).collect());
    let binary = || BinaryOp::ALL.iter().map(|op| op.name());
    match option {
        "--names" | "--svg" | "--html" | "--to" => Values::Files,
        "--format" => lower(Format::ALL.iter().map(|format| format.name()).collect()),
        "--mask" => Values::Words((0..SLOTS).map(|slot| slot.to_string()).collect()),
        "--accum" => lower(binary().collect()),
        "--monoid" => lower(Monoid::ALL.iter().map(|monoid| monoid.name()).collect()),
        "--semiring" => {
            let pair = |monoid: &Monoid| {
                binary().map(|op| format!("{}.{op}", monoid.name()).to_lowercase()).collect::<Vec<_>>()
            };
            Values::Words(Monoid::ALL.iter().flat_map(pair).collect())
        }
        _ => Values::Any,
    }
}

/// The operators of `--op`, which are others for each command.
fn operators(command: Command) -> Vec<String> {
    let names: Vec<&str> = match command {
        Command::Apply => {
            let names = UnaryOp::ALL.iter().map(|op| op.name()).chain(IndexUnaryOp::ALL.iter().map(|op| op.name()));
            names.chain(BinaryOp::ALL.iter().map(|op| op.name())).collect()
        }
        Command::Select => SelectOp::ALL.iter().map(|op| op.name()).collect(),
        _ => BinaryOp::ALL.iter().map(|op| op.name()).collect(),
    };
    names.into_iter().map(str::to_lowercase).collect()
}

fn option_values(command: Command, option: &str) -> Values {
    if option == "--op" {
        Values::Words(operators(command))
    } else {
        values(option)
    }
}

fn names() -> String {
    Command::ALL.map(Command::name).join(" ")
}

fn topics() -> String {
    format!("{} {}", names(), help::TOPICS.join(" "))
}

fn bash() -> String {
    let mut cases = String::new();
    for command in Command::ALL {
        let name = command.name();
        cases.push_str(&format!("    {name}) options=\"{} --help\" ;;\n", command.options().join(" ")));
    }
    let mut behind = String::new();
    for command in Command::ALL {
        for option in command.options().into_iter().filter(|option| has_value(option)) {
            let reply = match option_values(command, option) {
                Values::Files => "mapfile -t COMPREPLY < <(compgen -f -- \"$word\")".to_string(),
                Values::Words(words) => format!("COMPREPLY=($(compgen -W \"{}\" -- \"$word\"))", words.join(" ")),
                Values::Any => "COMPREPLY=()".to_string(),
            };
            behind.push_str(&format!("    \"{} {option}\") {reply}; return ;;\n", command.name()));
        }
    }
    let script = include_str!("completions/bash.txt").replace("@NAMES@", &names()).replace("@TOPICS@", &topics());
    script.replace("@VALUES@", &behind).replace("@OPTIONS@", &cases)
}

/// Text within single quotes, where zsh takes a backslash as it is.
fn single(text: &str) -> String {
    format!("'{}'", text.replace('\'', "'\\''"))
}

/// The same for fish, which has it doubled.
fn fish_single(text: &str) -> String {
    single(&text.replace('\\', "\\\\"))
}

fn zsh() -> String {
    let describe = |text: &str| text.replace(':', "\\:").replace('[', "\\[").replace(']', "\\]");
    let mut commands = String::new();
    let mut cases = String::new();
    for command in Command::ALL {
        let name = command.name();
        let about = describe(&help::summary(command));
        commands.push_str(&format!("    {}\n", single(&format!("{name}:{about}"))));
        cases.push_str(&format!("    {name}) _arguments"));
        for option in command.options() {
            let about = describe(&help::option_summary(command, option));
            let value = match (has_value(option), option_values(command, option)) {
                (false, _) => String::new(),
                (true, Values::Files) => ":file:_files".to_string(),
                (true, Values::Words(words)) => format!(":value:({})", words.join(" ")),
                (true, Values::Any) => ":value: ".to_string(),
            };
            cases.push_str(&format!(" {}", single(&format!("{option}[{about}]{value}"))));
        }
        let rest = match command {
            Command::Help => format!("*:topic:({})", topics()),
            Command::Completions => "*:shell:(bash zsh fish)".to_string(),
            _ => "*:file:_files".to_string(),
        };
        cases.push_str(&format!(" '--help[the page about a command]' {} ;;\n", single(&rest)));
    }
    include_str!("completions/zsh.txt").replace("@NAMES@", &commands).replace("@OPTIONS@", &cases)
}

fn fish() -> String {
    let mut text = "# fish completion of ostrubel; put it into ~/.config/fish/completions/ostrubel.fish\n".to_string();
    for command in Command::ALL {
        let (name, about) = (command.name(), fish_single(&help::summary(command)));
        text.push_str(&format!("complete -c ostrubel -n __fish_use_subcommand -f -a {name} -d {about}\n"));
        for option in command.options() {
            let about = fish_single(&help::option_summary(command, option));
            let value = match (has_value(option), option_values(command, option)) {
                (false, _) => String::new(),
                (true, Values::Files) => " -r -F".to_string(),
                (true, Values::Words(words)) => format!(" -x -a {}", fish_single(&words.join(" "))),
                (true, Values::Any) => " -x".to_string(),
            };
            let option = option.trim_start_matches('-');
            text.push_str(&format!(
                "complete -c ostrubel -n '__fish_seen_subcommand_from {name}' -l {option}{value} -d {about}\n"
            ));
        }
    }
    let line = |name: &str, words: &str| {
        format!("complete -c ostrubel -n '__fish_seen_subcommand_from {name}' -f -a {}\n", fish_single(words))
    };
    text.push_str("complete -c ostrubel -s h -l help -d 'the page about a command'\n");
    text.push_str("complete -c ostrubel -n __fish_use_subcommand -s V -l version -d 'the version'\n");
    text + &line("help", &topics()) + &line("completions", "bash zsh fish")
}

#[cfg(test)]
mod tests {
    use super::*;

    #[test]
    fn each_command_and_option_is_in_each_script() {
        for shell in [Shell::Bash, Shell::Zsh, Shell::Fish] {
            let script = script(shell);
            for command in Command::ALL {
                assert!(script.contains(command.name()), "{shell:?} {command:?}");
                for option in command.options() {
                    let name = if shell == Shell::Fish { option.trim_start_matches('-') } else { option };
                    assert!(script.contains(name), "{shell:?} {option}");
                }
            }
        }
    }
}
