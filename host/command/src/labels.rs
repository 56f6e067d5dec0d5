//! The names of rows, columns and places, from a file of names.
//!
//! A line is `row 2 medicine cupboard`, `column 1 Anna` or `place 0 reports`: a number counted from 0, and the rest of
//! the line is the name. Blank lines and those that begin with `#` are skipped. What has no name is shown by its
//! number.

use crate::failure::Failure;
use crate::sheet_file;
use crate::text::is_control;
use ostrubel::{MAX_COLS, MAX_ROWS, SLOTS};
use std::collections::btree_map::{BTreeMap, Entry};
use std::ffi::OsStr;

/// The longest file of names: some 100 bytes for each row and column.
pub const MAX_BYTES: usize = 1 << 18;

#[derive(Clone, Debug, Default, PartialEq, Eq)]
pub struct Labels {
    rows: BTreeMap<u32, String>,
    cols: BTreeMap<u32, String>,
    places: BTreeMap<u32, String>,
}

impl Labels {
    /// Reads a file, or standard input where the name is `-`.
    pub fn read(source: &OsStr) -> Result<Labels, Failure> {
        let (name, bytes) = sheet_file::bytes(source, MAX_BYTES)?;
        let wrong = |reason: String| Failure::Io(format!("{name}: {reason}"));
        if bytes.len() > MAX_BYTES {
            return Err(wrong(format!("a file of names has at most {MAX_BYTES} bytes")));
        }
        let text = String::from_utf8(bytes).map_err(|_| wrong("this is no text in UTF-8".to_string()))?;
        Labels::parse(&text).map_err(wrong)
    }

    pub fn parse(text: &str) -> Result<Labels, String> {
        let mut labels = Labels::default();
        let text = text.strip_prefix('\u{feff}').unwrap_or(text);
        for (position, line) in text.lines().enumerate() {
            let line = line.trim();
            if !line.is_empty() && !line.starts_with('#') {
                labels.add(line).map_err(|reason| format!("line {}: {reason}", position + 1))?;
            }
        }
        Ok(labels)
    }

    fn add(&mut self, line: &str) -> Result<(), String> {
        let form = "write: row, column or place, a number, and the name";
        let (kind, rest) = line.split_once(char::is_whitespace).ok_or(form)?;
        let (number, name) = rest.trim_start().split_once(char::is_whitespace).ok_or(form)?;
        let (names, count) = match kind.to_lowercase().as_str() {
            "row" => (&mut self.rows, MAX_ROWS),
            "column" => (&mut self.cols, MAX_COLS),
            "place" => (&mut self.places, SLOTS as u32),
            _ => return Err(form.to_string()),
        };
        let number = number.parse().ok().filter(|number| *number < count);
        let number = number.ok_or_else(|| format!("the number of a {kind} is 0 to {}", count - 1))?;
        let name = name.trim();
        if name.contains(is_control) {
            return Err("a name has no control characters".to_string());
        }
        match names.entry(number) {
            Entry::Vacant(place) => place.insert(name.to_string()),
            Entry::Occupied(_) => return Err(format!("{kind} {number} has a name already")),
        };
        Ok(())
    }

    pub fn row(&self, row: u32) -> Option<&str> {
        self.rows.get(&row).map(String::as_str)
    }

    pub fn col(&self, col: u32) -> Option<&str> {
        self.cols.get(&col).map(String::as_str)
    }

    pub fn place(&self, place: usize) -> Option<&str> {
        self.places.get(&u32::try_from(place).ok()?).map(String::as_str)
    }

    /// A row's name, or its number.
    pub fn row_head(&self, row: u32) -> String {
        self.row(row).map_or_else(|| row.to_string(), String::from)
    }

    /// A column's name, or its number.
    pub fn col_head(&self, col: u32) -> String {
        self.col(col).map_or_else(|| col.to_string(), String::from)
    }

    /// A cell in words.
    pub fn cell(&self, row: u32, col: u32) -> String {
        let row = self.row(row).map_or_else(|| format!("row {row}"), String::from);
        let col = self.col(col).map_or_else(|| format!("column {col}"), String::from);
        format!("{row}, {col}")
    }

    /// A place in words, with its name behind its number.
    pub fn place_head(&self, place: usize) -> String {
        match self.place(place) {
            Some(name) => format!("place {place} ({name})"),
            None => format!("place {place}"),
        }
    }

    /// Whether rows or columns have names.
    pub fn name_cells(&self) -> bool {
        !self.rows.is_empty() || !self.cols.is_empty()
    }
}

#[cfg(test)]
mod tests {
    use super::*;

    #[test]
    fn names_and_numbers() {
        let labels = "\u{feff}# The house\r\nrow 2  medicine cupboard \r\n\nCOLUMN 1 Anna\nplace 0 today's reports\n";
        let labels = Labels::parse(labels).unwrap();
        assert_eq!((labels.row_head(2).as_str(), labels.row_head(1).as_str()), ("medicine cupboard", "1"));
        assert_eq!(labels.cell(2, 1), "medicine cupboard, Anna");
        assert_eq!(labels.cell(1, 2), "row 1, column 2");
        assert_eq!(
            (labels.place_head(0).as_str(), labels.place_head(1).as_str()),
            ("place 0 (today's reports)", "place 1")
        );
    }

    #[test]
    fn lines_that_are_no_names() {
        for (text, reason) in [
            ("row 1 a\nrow 2", "line 2: write: row, column or place, a number, and the name"),
            ("row", "line 1: write: row, column or place, a number, and the name"),
            ("cell 1 a", "line 1: write: row, column or place, a number, and the name"),
            ("row 1000 a", "line 1: the number of a row is 0 to 999"),
            ("row -1 a", "line 1: the number of a row is 0 to 999"),
            ("place 8 a", "line 1: the number of a place is 0 to 7"),
            ("row 1 a\nrow 1 b", "line 2: row 1 has a name already"),
            ("row 1 \u{1b}[31mred", "line 1: a name has no control characters"),
        ] {
            assert_eq!(Labels::parse(text).unwrap_err(), reason, "{text}");
        }
    }
}
