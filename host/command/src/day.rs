//! Rows of a sheet that are rewritten for a day, in sheet files.

use crate::carry_out::counted;
use crate::changes;
use crate::failure::{Failure, Usage};
use crate::format::Format;
use crate::names::Whole;
use crate::output::Output;
use crate::refusal::Refusal;
use crate::settings::Settings;
use crate::sheet_file::{self, LockedSheet, Target};
use ostrubel::{DayOver, Error, Matrix, Section};
use std::ffi::{OsStr, OsString};

/// The base sheet, the day's rows and their marks.
#[derive(Debug)]
pub struct Files {
    base: OsString,
    day: OsString,
    marks: OsString,
}

#[derive(Debug)]
pub enum Day {
    Rewrite { day: OsString, marks: OsString, row: Whole, new: OsString },
    Back { day: OsString, marks: OsString, row: Whole },
    Read { files: Files, row: Whole, col: Whole },
    Show { files: Files, row: Whole },
    Fold { files: Files, out: OsString },
}

impl Day {
    /// By the words after `day`.
    pub fn parse(words: &[OsString]) -> Result<Day, Usage> {
        let (action, words) = words.split_first().ok_or_else(|| wrong("day: rewrite, back, read, show or fold"))?;
        let files = |base: &OsString, day: &OsString, marks: &OsString| {
            if [base, day, marks].iter().filter(|sheet| **sheet == "-").count() > 1 {
                return Err(wrong("day: standard input, which is -, can be read only once"));
            }
            Ok(Files { base: base.clone(), day: day.clone(), marks: marks.clone() })
        };
        match (action.to_str().unwrap_or_default(), words) {
            ("rewrite", [day, marks, row, new]) => {
                Ok(Day::Rewrite { day: day.clone(), marks: marks.clone(), row: whole(row)?, new: new.clone() })
            }
            ("back", [day, marks, row]) => Ok(Day::Back { day: day.clone(), marks: marks.clone(), row: whole(row)? }),
            ("read", [base, day, marks, row, col]) => {
                Ok(Day::Read { files: files(base, day, marks)?, row: whole(row)?, col: whole(col)? })
            }
            ("show", [base, day, marks, row]) => Ok(Day::Show { files: files(base, day, marks)?, row: whole(row)? }),
            ("fold", [base, day, marks, out]) => Ok(Day::Fold { files: files(base, day, marks)?, out: out.clone() }),
            ("rewrite", _) => Err(wrong("day rewrite DAY MARKS ROW NEW")),
            ("back", _) => Err(wrong("day back DAY MARKS ROW")),
            ("read", _) => Err(wrong("day read BASE DAY MARKS ROW COL")),
            ("show", _) => Err(wrong("day show BASE DAY MARKS ROW")),
            ("fold", _) => Err(wrong("day fold BASE DAY MARKS OUT")),
            (other, _) => Err(wrong(format!("day: no action {other:?}: rewrite, back, read, show or fold"))),
        }
    }

    /// Whether it can write a file.
    pub fn writes(&self) -> bool {
        !matches!(self, Day::Read { .. } | Day::Show { .. })
    }

    /// Whether a file was written.
    pub fn carry_out(&self, settings: &Settings, output: &mut Output) -> Result<bool, Failure> {
        match self {
            Day::Rewrite { day, marks, row, new } => {
                let new = read(new)?;
                // Rows first: until it is marked, a row is not shown.
                change([day, marks], false, settings, output, |rows, marked| {
                    rows.rewrite_row(marked, row.index(), &new)
                })
            }
            Day::Back { day, marks, row } => {
                // Marks first: a row without a mark is not shown.
                change([day, marks], true, settings, output, |rows, marked| rows.take_row_back(marked, row.index()))
            }
            Day::Read { files, row, col } => {
                let base = read(&files.base)?;
                let value = files.over(&base)?.get(row.index(), col.index()).map_err(refused)?;
                output.print(&value.map_or("empty".to_string(), |value| value.to_string()));
                Ok(false)
            }
            Day::Show { files, row } => {
                let base = read(&files.base)?;
                let over = files.over(&base)?;
                over.get(row.index(), 0).map_err(refused)?;
                let columns = over.row(row.index(), Section::Columns);
                let values = over.row(row.index(), Section::Values);
                for (column, value) in columns.iter().zip(values) {
                    output.print(&format!("{column} {}", *value as i32));
                }
                output.print(&counted(columns.len(), "entry", "entries"));
                Ok(false)
            }
            Day::Fold { files, out } => {
                let target = Target { name: out, format: Format::of_name(out), saving: settings.saving };
                target.write(None, output, || files.over(&read(&files.base)?)?.fold().map_err(refused))
            }
        }
    }
}

impl Files {
    fn over<'a>(&self, base: &'a Matrix) -> Result<DayOver<'a>, Failure> {
        Ok(DayOver::from_parts(base, read(&self.day)?, read(&self.marks)?))
    }
}

fn wrong(message: impl Into<String>) -> Usage {
    Usage::new("day", message)
}

fn whole(word: &OsString) -> Result<Whole, Usage> {
    let text = word.to_string_lossy();
    Whole::parse(&text).ok_or_else(|| wrong(format!("{text:?} is no whole number")))
}

fn refused(error: Error) -> Failure {
    Failure::from(Refusal::of(error, error.to_string()))
}

fn read(sheet: &OsStr) -> Result<Matrix, Failure> {
    Ok(sheet_file::read(sheet, Format::of_name(sheet), None)?.matrix)
}

/// Changes the rows and their marks, and saves both when the bytes of both are on the disk.
fn change<T>(
    [day, marks]: [&OsStr; 2],
    marks_first: bool,
    settings: &Settings,
    output: &mut Output,
    work: impl FnOnce(&mut Matrix, &mut Matrix) -> Result<T, Error>,
) -> Result<bool, Failure> {
    let mut sheets = LockedSheet::open_both(day, marks, settings.saving)?;
    let mut before = sheets.each_ref().map(|sheet| sheet.matrix.clone());
    let [rows, marked] = &mut sheets;
    work(&mut rows.matrix, &mut marked.matrix).map_err(refused)?;
    if marks_first {
        sheets.reverse();
        before.reverse();
    }
    if settings.saving.dry_run {
        let look = settings.look()?;
        for (before, sheet) in before.iter().zip(&sheets) {
            let lines = changes::of_sheet(&sheet.name(), Some(before), Some(&sheet.matrix), &look);
            output.show(&lines.join("\n"));
        }
    } else {
        let replacements = [sheets[0].replacement()?, sheets[1].replacement()?];
        for (sheet, replacement) in sheets.iter().zip(replacements) {
            replacement.finish()?;
            output.print(&format!("{}: {}", sheet.name(), sheet_file::described(&sheet.matrix)));
        }
    }
    Ok(settings.saving.saves(output))
}
