//! The pages of the help, which are the texts in the folder `help`.

use crate::commands::Command;
use crate::{guard, labels, script};
use ostrubel::{
    Error, MAX_ALLOWANCE, MAX_BRACKETS, MAX_COLS, MAX_ENTRIES, MAX_FILE_BYTES, MAX_FORMULA_BYTES, MAX_INDEXES,
    MAX_MATRIX_WORDS, MAX_ROWS, MAX_STORE_WORDS, MIN_STORE_WORDS, SLOTS,
};

const PAGE_WIDTH: usize = 98;

/// What the pages of the operations end with, those of all that write a file, and those of all that show cells.
const OPTIONS: &str = include_str!("help/options.txt");
const SHARED: &str = include_str!("help/shared.txt");
const NAMES_OPTION: &str = include_str!("help/names_option.txt");

/// The pages that are about no command.
pub const TOPICS: [&str; 6] = ["options", "operators", "refusals", "shared", "names", "example"];

/// The words of a sheet beside its rows and twice its values.
const FIXED_WORDS: usize = MAX_MATRIX_WORDS - MAX_ROWS as usize - 2 * MAX_ENTRIES;

/// The text with its limits: no page has one of its own.
fn filled(text: &str) -> String {
    let limits = [
        ("{MAX_ROWS}", MAX_ROWS as usize),
        ("{MAX_COLS}", MAX_COLS as usize),
        ("{MAX_ENTRIES}", MAX_ENTRIES),
        ("{MAX_INDEXES}", MAX_INDEXES),
        ("{MAX_ALLOWANCE}", MAX_ALLOWANCE as usize),
        ("{MAX_BRACKETS}", MAX_BRACKETS),
        ("{MAX_FORMULA_BYTES}", MAX_FORMULA_BYTES),
        ("{LAST_PLACE}", SLOTS - 1),
        ("{MIN_WORDS}", MIN_STORE_WORDS),
        ("{MAX_WORDS}", MAX_STORE_WORDS),
        ("{GUARD_BYTES}", guard::GUARD_BYTES),
        ("{FIXED_WORDS}", FIXED_WORDS),
        ("{EXAMPLE_WORDS}", MIN_STORE_WORDS + 2 * (50 + 400 + FIXED_WORDS)),
        ("{MAX_NAMES_BYTES}", labels::MAX_BYTES),
        ("{MAX_SHEET_BYTES}", MAX_FILE_BYTES),
        ("{MAX_SCRIPT_BYTES}", script::MAX_BYTES),
        ("{MAX_PRINTED_BYTES}", script::MAX_PRINTED_BYTES),
    ];
    limits.iter().fold(text.to_string(), |text, (name, limit)| text.replace(name, &limit.to_string()))
}

/// The first page.
pub fn overview() -> String {
    command_page(Command::Help)
}

/// The page about a command or another topic.
pub fn page(topic: &str) -> Option<String> {
    if let Some(command) = Command::find(topic) {
        return Some(command_page(command));
    }
    match topic.to_lowercase().as_str() {
        "options" => Some(format!("Options of the operations that write a sheet\n\n{OPTIONS}")),
        "operators" => Some(include_str!("help/operators.txt").to_string()),
        "refusals" => Some(refusals()),
        "shared" => Some(format!(
            "Options of all commands that write a file, and of those that show cells\n\n{SHARED}{NAMES_OPTION}"
        )),
        "names" => Some(filled(include_str!("help/names.txt"))),
        "example" => Some(include_str!("help/example.txt").to_string()),
        _ => None,
    }
}

/// How a command is written.
pub fn form(command: Command) -> &'static str {
    command_text(command).lines().next().unwrap_or_default()
}

/// The page about a command, without what it shares with others.
pub fn own_page(command: Command) -> String {
    filled(command_text(command))
}

fn command_page(command: Command) -> String {
    let mut page = own_page(command);
    if command.is_operation() {
        page.push_str(&format!("\n{OPTIONS}"));
    }
    let shared = if command.writes() { SHARED } else { "" };
    let names = if command.shows_cells() { NAMES_OPTION } else { "" };
    if !shared.is_empty() || !names.is_empty() {
        page.push_str(&format!("\n{shared}{names}"));
    }
    page
}

/// What the first page says about a command.
pub fn summary(command: Command) -> String {
    let page = overview();
    let mut lines = page.lines().filter_map(|line| line.strip_prefix("  "));
    let line = lines.find(|line| line.split(' ').next() == Some(command.name()));
    line.and_then(|line| part_behind(line, command.name())).unwrap_or_default()
}

/// What a command's page says about an option, in its first line there.
pub fn option_summary(command: Command, option: &str) -> String {
    let page = command_page(command);
    page.lines().find_map(|line| part_behind(line, option)).unwrap_or_default()
}

/// The part behind the one that has a word, where parts are two blanks or more apart.
fn part_behind(line: &str, word: &str) -> Option<String> {
    let mut parts = line.split("  ").filter(|part| !part.is_empty());
    parts.find(|part| part.split(' ').any(|other| other == word))?;
    parts.next().map(|part| part.trim().to_string())
}

fn command_text(command: Command) -> &'static str {
    match command {
        Command::New => include_str!("help/new.txt"),
        Command::Lay => include_str!("help/lay.txt"),
        Command::Drop => include_str!("help/drop.txt"),
        Command::Set => include_str!("help/set.txt"),
        Command::Clear => include_str!("help/clear.txt"),
        Command::Read => include_str!("help/read.txt"),
        Command::Show => include_str!("help/show.txt"),
        Command::List => include_str!("help/list.txt"),
        Command::Mxm => include_str!("help/mxm.txt"),
        Command::Vxm => include_str!("help/vxm.txt"),
        Command::EwiseMult => include_str!("help/ewise_mult.txt"),
        Command::EwiseAdd => include_str!("help/ewise_add.txt"),
        Command::Apply => include_str!("help/apply.txt"),
        Command::Extract => include_str!("help/extract.txt"),
        Command::Import => include_str!("help/import.txt"),
        Command::Export => include_str!("help/export.txt"),
        Command::Print => include_str!("help/print.txt"),
        Command::Doors => include_str!("help/doors.txt"),
        Command::Day => include_str!("help/day.txt"),
        Command::Select => include_str!("help/select.txt"),
        Command::ReduceRows => include_str!("help/reduce_rows.txt"),
        Command::Assign => include_str!("help/assign.txt"),
        Command::Kronecker => include_str!("help/kronecker.txt"),
        Command::Formula => include_str!("help/formula.txt"),
        Command::Reduce => include_str!("help/reduce.txt"),
        Command::Run => include_str!("help/run.txt"),
        Command::Merge => include_str!("help/merge.txt"),
        Command::Diff => include_str!("help/diff.txt"),
        Command::Copy => include_str!("help/copy.txt"),
        Command::Resize => include_str!("help/resize.txt"),
        Command::Convert => include_str!("help/convert.txt"),
        Command::Revision => include_str!("help/revision.txt"),
        Command::Completions => include_str!("help/completions.txt"),
        Command::Man => include_str!("help/man.txt"),
        Command::Help => include_str!("help/overview.txt"),
    }
}

/// The refusals that can come up here, with the library's sentences broken into lines.
///
/// The others are about numbers and buffers that the command makes itself.
fn refusals() -> String {
    let mut page = "Refusals: the first of these that applies is given\n\n".to_string();
    for error in [
        Error::InvalidStore,
        Error::EmptySlot,
        Error::IndexOutOfBounds,
        Error::InvalidShape,
        Error::TooManyEntries,
        Error::InsufficientSpace,
        Error::InvalidFormula,
        Error::InvalidFile,
    ] {
        let mut line = format!("{:>4} ", error.number());
        for word in error.to_string().split(' ') {
            if line.chars().count() + 1 + word.chars().count() > PAGE_WIDTH {
                page.push_str(&format!("{line}\n"));
                line = " ".repeat(5);
            }
            line.push(' ');
            line.push_str(word);
        }
        page.push_str(&format!("{line}\n"));
    }
    page + include_str!("help/not_refused.txt")
}

#[cfg(test)]
mod tests {
    use super::*;
    use crate::task::Task;
    use std::ffi::OsString;

    fn pages() -> Vec<String> {
        let topics = Command::ALL.map(Command::name).into_iter().chain(TOPICS);
        topics.map(|topic| page(topic).unwrap_or_else(|| panic!("no page {topic}"))).collect()
    }

    #[test]
    fn each_page_fits_one_screen() {
        for page in pages() {
            assert!(page.lines().count() < 64, "{page}");
            for line in page.lines() {
                assert!(line.chars().count() <= 100, "{line}");
            }
        }
    }

    /// The numbers of a page's text as it is written, with words such as `0..9` in their parts.
    fn numbers(text: &str) -> Vec<u64> {
        text.split(|c: char| !c.is_ascii_digit()).filter_map(|digits| digits.parse().ok()).collect()
    }

    #[test]
    fn limits_are_filled_in() {
        let limits =
            numbers(&filled("{MAX_ROWS} {MAX_COLS} {MAX_ENTRIES} {MAX_INDEXES} {MAX_WORDS} {MAX_NAMES_BYTES}"));
        assert_eq!(limits, [1_000, 1_000, 2_048, 1_000, 16_384, 262_144]);
        for page in pages() {
            assert!(!page.contains('{') && !page.contains('}'), "{page}");
        }
        // 1000 words are a shelf in the first page's example, and no limit.
        for command in Command::ALL.into_iter().filter(|command| *command != Command::Help) {
            assert!(!numbers(command_text(command)).iter().any(|number| limits.contains(number)), "{command:?}");
        }
    }

    #[test]
    fn each_example_is_a_command() {
        for page in pages() {
            for line in page.lines().filter_map(|line| line.strip_prefix("    ostrubel ")) {
                let line = line.split(['|', '>']).next().unwrap_or_default().trim_end();
                let words: Vec<OsString> = line.split(' ').map(OsString::from).collect();
                assert!(Task::parse(&words).is_ok(), "{line}");
            }
        }
    }

    #[test]
    fn each_command_is_on_the_first_page_and_on_its_own() {
        for command in Command::ALL {
            assert!(overview().lines().any(|line| line.starts_with(&format!("  {} ", command.name()))), "{command:?}");
            let first = command_page(command);
            let file = command.file().map_or_else(String::new, |file| format!(" {file}"));
            assert!(command == Command::Help || first.starts_with(&format!("ostrubel {}{file}", command.name())));
            assert!(!summary(command).is_empty(), "{command:?}");
        }
    }

    /// The options that a page explains are those that the command takes.
    #[test]
    fn each_option_is_on_its_page() {
        for command in Command::ALL.into_iter().filter(|command| *command != Command::Help) {
            let (page, options) = (command_page(command), command.options());
            for option in &options {
                assert!(page.contains(option), "{command:?} {option}");
                assert!(!option_summary(command, option).is_empty(), "{command:?} {option}");
            }
            for word in form(command).split([' ', '[', ']']).filter(|word| word.starts_with("--")) {
                assert!(options.contains(&word), "{command:?} {word}");
            }
        }
        assert_eq!(
            option_summary(Command::Set, "--dry-run"),
            "shows which cells would change, with their old and new values, and saves nothing"
        );
        assert_eq!(summary(Command::Reduce), "prints all values added up");
    }
}
