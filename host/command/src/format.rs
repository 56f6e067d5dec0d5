//! The formats of a sheet's file.

use crate::failure::Failure;
use crate::labels::Labels;
use crate::refusal::Refusal;
use crate::{csv, matrix_market};
use ostrubel::{Matrix, MAX_FILE_BYTES};
use std::ffi::OsStr;
use std::path::Path;

/// The longest text that is read: a full sheet as comma-separated values has about a million commas.
const MAX_TEXT: usize = 1 << 24;

#[derive(Clone, Copy, Debug, PartialEq, Eq)]
pub enum Format {
    /// The words of the sheet.
    Sheet,
    Csv,
    MatrixMarket,
}

impl Format {
    pub const ALL: [Format; 3] = [Format::Sheet, Format::Csv, Format::MatrixMarket];

    pub fn name(self) -> &'static str {
        match self {
            Format::Sheet => "sheet",
            Format::Csv => "csv",
            Format::MatrixMarket => "mtx",
        }
    }

    /// What a file of it is called.
    pub fn title(self) -> &'static str {
        match self {
            Format::Sheet => "sheet file",
            Format::Csv => "CSV file",
            Format::MatrixMarket => "Matrix Market file",
        }
    }

    pub fn parse(text: &str) -> Result<Format, String> {
        let found = Format::ALL.into_iter().find(|format| format.name().eq_ignore_ascii_case(text));
        found.ok_or_else(|| format!("no format {text:?}: there are sheet, csv, mtx"))
    }

    /// By the ending of a file's name.
    pub fn of_name(name: &OsStr) -> Format {
        let ending = Path::new(name).extension().unwrap_or_default().to_ascii_lowercase();
        Format::ALL.into_iter().find(|format| ending == format.name()).unwrap_or(Format::Sheet)
    }

    /// The most bytes that a file has.
    pub fn longest(self) -> usize {
        if self == Format::Sheet {
            MAX_FILE_BYTES
        } else {
            MAX_TEXT
        }
    }

    pub fn write(self, matrix: &Matrix, labels: Option<&Labels>) -> Result<Vec<u8>, Failure> {
        let not_named =
            |reason| Failure::Io(format!("a CSV file cannot have these names: {reason}; nothing was written"));
        Ok(match self {
            Format::Sheet => matrix.to_bytes(),
            Format::Csv => csv::write(matrix, labels).map_err(not_named)?.into_bytes(),
            Format::MatrixMarket => matrix_market::write(matrix).into_bytes(),
        })
    }

    /// Whether the bytes are a file of it, with whatever names.
    pub fn is_of(self, bytes: &[u8]) -> bool {
        match (self, std::str::from_utf8(bytes)) {
            (Format::Csv, Ok(text)) => bytes.len() <= MAX_TEXT && csv::is_table(text),
            _ => self.read("", bytes, None).is_ok(),
        }
    }

    /// The matrix of a file's bytes. `name` is the file's, for what is to be said.
    pub fn read(self, name: &str, bytes: &[u8], labels: Option<&Labels>) -> Result<Matrix, Failure> {
        let wrong = |reason: String| Failure::Io(format!("{name} is no {}: {reason}", self.title()));
        let text = || match std::str::from_utf8(bytes) {
            _ if bytes.len() > MAX_TEXT => Err(wrong(format!("it has more than {MAX_TEXT} bytes"))),
            Ok(text) => Ok(text),
            Err(_) => Err(wrong("it is no text in UTF-8".to_string())),
        };
        match self {
            Format::Sheet => {
                Matrix::from_bytes(bytes).map_err(|error| Refusal::of_sheet(error, name, bytes.len()).into())
            }
            Format::Csv => csv::read(text()?, labels).map_err(wrong),
            Format::MatrixMarket => matrix_market::read(text()?).map_err(wrong),
        }
    }
}

#[cfg(test)]
mod tests {
    use super::*;

    #[test]
    fn by_name_and_by_ending() {
        assert_eq!(Format::parse("CSV"), Ok(Format::Csv));
        assert!(Format::parse("xls").is_err());
        for (name, format) in [
            ("a.csv", Format::Csv),
            ("dir.csv/a", Format::Sheet),
            ("a.MTX", Format::MatrixMarket),
            ("a.sheet", Format::Sheet),
            ("-", Format::Sheet),
            ("csv", Format::Sheet),
        ] {
            assert_eq!(Format::of_name(OsStr::new(name)), format, "{name}");
        }
    }
}
