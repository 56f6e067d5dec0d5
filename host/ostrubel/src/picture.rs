//! A matrix as text: its cells under column numbers and beside row numbers, or a list of its entries where that would
//! be too wide or too long.

use crate::Matrix;
use std::fmt::{self, Write};

/// The widest picture, in characters.
const MAX_WIDTH: usize = 120;

/// The most rows of a picture.
const MAX_PICTURE_ROWS: u32 = 60;

const GAP: usize = 2;

/// Writes the matrix, with no line break at the end.
pub fn write(matrix: &Matrix, out: &mut impl Write) -> fmt::Result {
    let picture = Picture::of(matrix);
    if matrix.rows() > MAX_PICTURE_ROWS || picture.width() > MAX_WIDTH {
        write_list(matrix, out)
    } else {
        picture.write(out)
    }
}

/// The shape and the number of entries, then a line `row column value` for each entry.
fn write_list(matrix: &Matrix, out: &mut impl Write) -> fmt::Result {
    let (rows, cols, entries) = (matrix.rows(), matrix.cols(), matrix.entries());
    let noun = if entries == 1 { "entry" } else { "entries" };
    write!(out, "{rows} by {cols}, {entries} {noun}")?;
    for (row, col, value) in matrix {
        write!(out, "\n{row} {col} {value}")?;
    }
    Ok(())
}

struct Picture<'a> {
    matrix: &'a Matrix,
    /// The width of the row numbers.
    margin: usize,
    /// The width of each column.
    widths: Vec<usize>,
}

impl Picture<'_> {
    fn of(matrix: &Matrix) -> Picture<'_> {
        let mut widths: Vec<usize> = (0..matrix.cols()).map(digits).collect();
        for (_, col, value) in matrix {
            let width = &mut widths[col as usize];
            *width = (*width).max(value_width(value));
        }
        Picture { matrix, margin: digits(matrix.rows() - 1), widths }
    }

    fn width(&self) -> usize {
        self.margin + self.columns().map(|(_, width)| width).sum::<usize>()
    }

    fn write(&self, out: &mut impl Write) -> fmt::Result {
        let margin = self.margin;
        write!(out, "{:margin$}", "")?;
        for (col, width) in self.columns() {
            write!(out, "{col:>width$}")?;
        }
        let mut entries = self.matrix.iter().peekable();
        for row in 0..self.matrix.rows() {
            write!(out, "\n{row:>margin$}")?;
            for (col, width) in self.columns() {
                match entries.next_if(|&(i, j, _)| (i, j) == (row, col)) {
                    Some((.., value)) => write!(out, "{value:>width$}")?,
                    None => write!(out, "{:>width$}", '.')?,
                }
            }
        }
        Ok(())
    }

    /// The column numbers, and the width of each with its gap.
    fn columns(&self) -> impl Iterator<Item = (u32, usize)> + '_ {
        (0..).zip(self.widths.iter().map(|width| GAP + width))
    }
}

fn digits(number: u32) -> usize {
    number.checked_ilog10().map_or(1, |log| log as usize + 1)
}

fn value_width(value: i32) -> usize {
    usize::from(value < 0) + digits(value.unsigned_abs())
}

#[cfg(test)]
mod tests {
    use crate::{Error, Matrix};

    fn lines(matrix: &Matrix) -> Vec<String> {
        matrix.to_string().split('\n').map(String::from).collect()
    }

    /// One row of so many columns: one character for the row number and eight for each column.
    fn wide_row(cols: u32) -> Result<Matrix, Error> {
        Matrix::from_triples(1, cols, (0..cols).map(|col| (0, col, 100_000)))
    }

    #[test]
    fn draws_cells() -> Result<(), Error> {
        let matrix = Matrix::from_triples(3, 4, [(0, 0, 10), (0, 1, 20), (0, 3, 40), (2, 1, -5), (2, 2, 0)])?;
        assert_eq!(lines(&matrix), ["    0   1  2   3", "0  10  20  .  40", "1   .   .  .   .", "2   .  -5  0   ."]);
        Ok(())
    }

    #[test]
    fn draws_a_single_cell() -> Result<(), Error> {
        assert_eq!(lines(&Matrix::new(1, 1)?), ["   0", "0  ."]);
        assert_eq!(lines(&Matrix::from_triples(1, 1, [(0, 0, i32::MIN)])?), ["             0", "0  -2147483648"]);
        Ok(())
    }

    #[test]
    fn aligns_row_and_column_numbers() -> Result<(), Error> {
        let matrix = Matrix::from_triples(11, 12, [(0, 11, 3), (10, 10, 4)])?;
        let text = lines(&matrix);
        assert_eq!(text.len(), 12);
        assert_eq!(text[0], "    0  1  2  3  4  5  6  7  8  9  10  11");
        assert_eq!(text[1], " 0  .  .  .  .  .  .  .  .  .  .   .   3");
        assert_eq!(text[10], " 9  .  .  .  .  .  .  .  .  .  .   .   .");
        assert_eq!(text[11], "10  .  .  .  .  .  .  .  .  .  .   4   .");
        Ok(())
    }

    #[test]
    fn lists_more_than_sixty_rows() -> Result<(), Error> {
        let entries = [(0, 1, 5), (59, 0, -7)];
        let drawn = lines(&Matrix::from_triples(60, 2, entries)?);
        assert_eq!(drawn.len(), 61);
        assert_eq!([&drawn[0], &drawn[1], &drawn[60]], ["     0  1", " 0   .  5", "59  -7  ."]);
        let listed = lines(&Matrix::from_triples(61, 2, entries)?);
        assert_eq!(listed, ["61 by 2, 2 entries", "0 1 5", "59 0 -7"]);
        Ok(())
    }

    #[test]
    fn lists_what_is_wider_than_120_characters() -> Result<(), Error> {
        let drawn = lines(&wide_row(14)?);
        assert_eq!(drawn.len(), 2);
        assert_eq!(drawn[1], format!("0{}", "  100000".repeat(14)));
        assert_eq!(lines(&wide_row(15)?).len(), 16);
        Ok(())
    }

    #[test]
    fn draws_exactly_120_characters() -> Result<(), Error> {
        let first = |value| (0..15).map(move |col| (0, col, if col == 0 { value } else { 100_000 }));
        let drawn = lines(&Matrix::from_triples(1, 15, first(10_000))?);
        assert_eq!(drawn.iter().map(String::len).collect::<Vec<_>>(), [120, 120]);
        let listed = lines(&Matrix::from_triples(1, 15, first(100_000))?);
        assert_eq!([&listed[0], &listed[1]], ["1 by 15, 15 entries", "0 0 100000"]);
        Ok(())
    }

    #[test]
    fn lists_the_largest_shape() -> Result<(), Error> {
        assert_eq!(lines(&Matrix::new(1_000, 1_000)?), ["1000 by 1000, 0 entries"]);
        let matrix = Matrix::from_triples(1_000, 1_000, [(999, 999, 1)])?;
        assert_eq!(lines(&matrix), ["1000 by 1000, 1 entry", "999 999 1"]);
        Ok(())
    }
}
