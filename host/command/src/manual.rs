//! The manual page, made of the pages of the help.

use crate::commands::Command;
use crate::help;

/// The page in the language of `man`.
pub fn page() -> String {
    let mut page = format!(
        ".TH OSTRUBEL 1 \"\" \"ostrubel {}\" \"User Commands\"\n.SH NAME\nostrubel \\- {}\n.SH SYNOPSIS\n",
        env!("CARGO_PKG_VERSION"),
        escaped("sheets of whole numbers on a shelf that is kept in a file")
    );
    for command in Command::ALL.into_iter().filter(|command| *command != Command::Help) {
        page.push_str(&format!("{}\n.br\n", line(help::form(command))));
    }
    page.push_str(&section("DESCRIPTION", &help::overview()));
    page.push_str(".SH COMMANDS\n");
    for command in Command::ALL.into_iter().filter(|command| *command != Command::Help) {
        page.push_str(&format!(".SS {}\n{}", escaped(command.name()), verbatim(&help::own_page(command))));
    }
    for topic in help::TOPICS {
        page.push_str(&section(&topic.to_uppercase(), &help::page(topic).unwrap_or_default()));
    }
    page
}

fn section(title: &str, text: &str) -> String {
    format!(".SH {title}\n{}", verbatim(text))
}

/// Lines as they stand.
fn verbatim(text: &str) -> String {
    let lines: String = text.lines().map(|text| line(text) + "\n").collect();
    format!(".nf\n{lines}.fi\n")
}

/// A line that is no request, though it may begin like one.
fn line(text: &str) -> String {
    let text = escaped(text);
    if text.starts_with(['.', '\'']) {
        format!("\\&{text}")
    } else {
        text
    }
}

fn escaped(text: &str) -> String {
    text.replace('\\', "\\e")
        .replace('-', "\\-")
        .replace('\'', "\\(aq")
        .replace('`', "\\(ga")
        .replace('^', "\\(ha")
        .replace('~', "\\(ti")
}
