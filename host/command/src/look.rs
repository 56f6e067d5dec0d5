//! How sheets are shown: with which names, how wide, in colour or not, or as JSON.

use crate::labels::Labels;
use std::env;
use std::fs::File;
use std::io::{self, IsTerminal};
use std::process::{Command, Stdio};

/// The widest picture where the output is no terminal, in characters.
const PAGE_WIDTH: usize = 120;

/// The width of a terminal that does not tell.
const TERMINAL_WIDTH: usize = 80;

#[derive(Clone, Debug)]
pub struct Look {
    pub labels: Labels,
    pub json: bool,
    /// The widest picture, in characters.
    pub width: usize,
    /// Whether changed cells are shown in colour.
    pub colour: bool,
}

impl Look {
    /// For standard output.
    pub fn new(labels: Labels, json: bool) -> Look {
        let is_terminal = io::stdout().is_terminal();
        let no_colour = env::var_os("NO_COLOR").is_some_and(|value| !value.is_empty());
        let dumb = env::var_os("TERM").is_some_and(|terminal| terminal == "dumb");
        Look {
            labels,
            json,
            width: if is_terminal { terminal_width() } else { PAGE_WIDTH },
            colour: is_terminal && !no_colour && !dumb,
        }
    }

    /// A value that goes.
    pub fn old(&self, text: &str) -> String {
        self.coloured("31", text)
    }

    /// A value that comes.
    pub fn new_value(&self, text: &str) -> String {
        self.coloured("32", text)
    }

    fn coloured(&self, colour: &str, text: &str) -> String {
        if self.colour {
            format!("\u{1b}[{colour}m{text}\u{1b}[0m")
        } else {
            text.to_string()
        }
    }
}

fn terminal_width() -> usize {
    let columns = env::var("COLUMNS").ok().and_then(|text| parse_width(&text));
    columns.or_else(asked_width).unwrap_or(TERMINAL_WIDTH)
}

/// As `stty` tells.
fn asked_width() -> Option<usize> {
    let terminal = File::open("/dev/tty").ok()?;
    let answer = Command::new("stty").arg("size").stdin(terminal).stderr(Stdio::null()).output().ok()?;
    parse_width(String::from_utf8(answer.stdout).ok()?.split_whitespace().nth(1)?)
}

fn parse_width(text: &str) -> Option<usize> {
    text.trim().parse().ok().filter(|width| *width > 0)
}

#[cfg(test)]
pub mod tests {
    use super::*;

    /// A page without names and colour.
    pub fn plain(width: usize) -> Look {
        Look { labels: Labels::default(), json: false, width, colour: false }
    }

    #[test]
    fn colours() {
        let look = Look { colour: true, ..plain(80) };
        assert_eq!(
            (look.old("5").as_str(), look.new_value("6").as_str()),
            ("\u{1b}[31m5\u{1b}[0m", "\u{1b}[32m6\u{1b}[0m")
        );
        assert_eq!(plain(80).old("5"), "5");
    }

    #[test]
    fn widths() {
        assert_eq!(
            [parse_width("80"), parse_width(" 132\n"), parse_width("0"), parse_width("x")],
            [Some(80), Some(132), None, None]
        );
    }
}
