//! One matrix in a file of its own, in one of the formats.

use crate::carry_out::counted;
use crate::failure::Failure;
use crate::format::Format;
use crate::labels::Labels;
use crate::locked_file::{LockedFile, Saving};
use crate::merge::Sheet;
use crate::output::Output;
use crate::replacing::{read_at_most, write_over, Replacement};
use crate::text::shown_path;
use ostrubel::Matrix;
use std::ffi::OsStr;
use std::fs::File;
use std::io::{self, IsTerminal};
use std::path::Path;

/// The bytes of a file, or of standard input where the name is `-`, and a name for it. It is read to its end, and may
/// come in pieces, but of a longer one only a byte more than `most` is read.
pub fn bytes(source: &OsStr, most: usize) -> Result<(String, Vec<u8>), Failure> {
    let path = Path::new(if source == "-" { OsStr::new("standard input") } else { source });
    let bytes = if source == "-" {
        read_at_most(io::stdin(), most)
    } else {
        File::open(path).and_then(|file| read_at_most(file, most))
    };
    Ok((shown_path(path), bytes.map_err(|error| Failure::io(path, error))?))
}

/// The matrix in a file of some format, and the file's name. Names are for comma-separated values.
pub fn read(source: &OsStr, format: Format, labels: Option<&Labels>) -> Result<Sheet, Failure> {
    let (name, bytes) = bytes(source, format.longest())?;
    let matrix = format.read(&name, &bytes, labels)?;
    Ok(Sheet { name, matrix })
}

/// A sheet in a file that is locked from before it is read until it is replaced.
pub struct LockedSheet<'a> {
    path: &'a Path,
    format: Format,
    file: LockedFile,
    pub matrix: Matrix,
}

impl<'a> LockedSheet<'a> {
    /// The sheets of two files.
    pub fn open_both(first: &'a OsStr, second: &'a OsStr, saving: Saving) -> Result<[Self; 2], Failure> {
        let [one, other] = LockedFile::open_both(Path::new(first), Path::new(second), saving)?;
        Ok([LockedSheet::read(first, one)?, LockedSheet::read(second, other)?])
    }

    fn read(name: &'a OsStr, file: LockedFile) -> Result<Self, Failure> {
        let (path, format) = (Path::new(name), Format::of_name(name));
        let bytes = read_at_most(&file.file, format.longest()).map_err(|error| Failure::io(path, error))?;
        let matrix = format.read(&shown_path(path), &bytes, None)?;
        Ok(LockedSheet { path, format, file, matrix })
    }

    /// The matrix as it is now, for the file.
    pub fn replacement(&self) -> Result<Replacement<'_>, Failure> {
        Replacement::prepare(self.path, &self.file, &self.format.write(&self.matrix, None)?)
    }

    pub fn name(&self) -> String {
        shown_path(self.path)
    }
}

/// Where a matrix goes, and how.
pub struct Target<'a> {
    /// A file, or standard output where the name is `-`.
    pub name: &'a OsStr,
    pub format: Format,
    pub saving: Saving,
}

impl Target<'_> {
    /// Writes the matrix that is made, while a file that is there is locked. Only one of the same format is replaced.
    /// Whether a file was written.
    pub fn write(
        &self,
        labels: Option<&Labels>,
        output: &mut Output,
        make: impl FnOnce() -> Result<Matrix, Failure>,
    ) -> Result<bool, Failure> {
        if self.name == "-" {
            let bytes = self.format.write(&make()?, labels)?;
            if self.format == Format::Sheet && io::stdout().is_terminal() {
                return Err(Failure::Io(
                    "a sheet file is not for a terminal; name a file, or --format csv".to_string(),
                ));
            }
            output.add(&bytes);
            return Ok(false);
        }
        let (path, kind) = (Path::new(self.name), (self.format.title(), self.format.longest()));
        write_over(
            path,
            self.saving,
            kind,
            |before| self.format.is_of(before),
            || {
                let matrix = make()?;
                output.print(&format!("{}: {}", shown_path(path), described(&matrix)));
                self.format.write(&matrix, labels)
            },
        )?;
        Ok(self.saving.saves(output))
    }
}

/// The shape and the entries.
pub fn described(matrix: &Matrix) -> String {
    format!("{} by {}, {}", matrix.rows(), matrix.cols(), counted(matrix.entries(), "entry", "entries"))
}
