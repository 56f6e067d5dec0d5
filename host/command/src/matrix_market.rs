//! Sheets in the Matrix Market's exchange format: a banner, comments, the shape and the number of entries, and a line
//! for each entry with row and column counted from 1.
//!
//! Coordinate matrices of whole numbers are read, and patterns, whose entries are 1; general and symmetric ones.

use ostrubel::Matrix;
use std::collections::BTreeSet;

const BANNER: &str = "%%MatrixMarket matrix coordinate integer general";

pub fn write(matrix: &Matrix) -> String {
    let mut text = format!("{BANNER}\n{} {} {}\n", matrix.rows(), matrix.cols(), matrix.entries());
    for (row, col, value) in matrix {
        text.push_str(&format!("{} {} {value}\n", row + 1, col + 1));
    }
    text
}

pub fn read(text: &str) -> Result<Matrix, String> {
    let mut lines = text.lines().enumerate().map(|(at, line)| (at + 1, line));
    let banner = Banner::parse(lines.next().map_or("", |(_, line)| line))?;
    let mut lines = lines.filter(|(_, line)| !line.trim().is_empty() && !line.starts_with('%'));
    let (at, sizes) = lines.next().ok_or("the line with rows, columns and entries is missing")?;
    let [rows, cols, count] = numbers(at, sizes)?;
    let mut entries = Vec::new();
    let mut seen = BTreeSet::new();
    for (at, line) in lines {
        let (row, col, value) = banner.entry(at, line)?;
        for (row, col) in banner.cells(at, row, col)? {
            if !seen.insert((row, col)) {
                return Err(format!("line {at}: row {} and column {} stand twice", row + 1, col + 1));
            }
            entries.push((row, col, value));
        }
        if seen.len() > 2 * ostrubel::MAX_ENTRIES {
            break;
        }
    }
    let given =
        if banner.is_symmetric { entries.iter().filter(|(row, col, _)| row >= col).count() } else { entries.len() };
    let matrix = Matrix::from_triples(rows, cols, entries).map_err(|error| error.to_string())?;
    if given != count as usize {
        return Err(format!("{given} entries stand there, and line {at} says {count}"));
    }
    Ok(matrix)
}

struct Banner {
    is_pattern: bool,
    is_symmetric: bool,
}

impl Banner {
    fn parse(line: &str) -> Result<Banner, String> {
        let words: Vec<String> = line.split_whitespace().map(str::to_lowercase).collect();
        let words: Vec<&str> = words.iter().map(String::as_str).collect();
        match words.as_slice() {
            ["%%matrixmarket", "matrix", "coordinate", values, form]
                if ["integer", "pattern"].contains(values) && ["general", "symmetric"].contains(form) =>
            {
                Ok(Banner { is_pattern: *values == "pattern", is_symmetric: *form == "symmetric" })
            }
            ["%%matrixmarket", ..] => {
                Err("only coordinate matrices are read, integer or pattern, general or symmetric".into())
            }
            _ => Err("the first line of a Matrix Market file begins with %%MatrixMarket".to_string()),
        }
    }

    /// Row and column, counted from 1, and the value.
    fn entry(&self, at: usize, line: &str) -> Result<(u32, u32, i32), String> {
        if self.is_pattern {
            let [row, col] = numbers(at, line)?;
            return Ok((row, col, 1));
        }
        let (cell, value) = line.trim().rsplit_once(char::is_whitespace).unwrap_or(("", line));
        let [row, col] = numbers(at, cell)?;
        let value = value.parse().map_err(|_| format!("line {at}: {value:?} is no whole number of 32 bits"))?;
        Ok((row, col, value))
    }

    /// The cells of an entry, counted from 0: of a symmetric matrix the mirrored one too.
    fn cells(&self, at: usize, row: u32, col: u32) -> Result<Vec<(u32, u32)>, String> {
        match (row.checked_sub(1), col.checked_sub(1)) {
            (Some(row), Some(col)) if self.is_symmetric && row < col => {
                Err(format!("line {at}: a symmetric matrix is given by its lower triangle"))
            }
            (Some(row), Some(col)) if self.is_symmetric && row != col => Ok(vec![(row, col), (col, row)]),
            (Some(row), Some(col)) => Ok(vec![(row, col)]),
            _ => Err(format!("line {at}: rows and columns are counted from 1")),
        }
    }
}

fn numbers<const N: usize>(at: usize, line: &str) -> Result<[u32; N], String> {
    let numbers = line.split_whitespace().map(|word| word.parse().ok()).collect::<Option<Vec<u32>>>();
    numbers
        .and_then(|numbers| numbers.try_into().ok())
        .ok_or_else(|| format!("line {at}: {N} whole numbers are due, and not {line:?}"))
}

#[cfg(test)]
mod tests {
    use super::*;

    #[test]
    fn out_and_in_again() {
        let matrix = Matrix::from_triples(2, 3, [(0, 2, -7), (1, 0, 0)]).unwrap();
        let text = "%%MatrixMarket matrix coordinate integer general\n2 3 2\n1 3 -7\n2 1 0\n";
        assert_eq!(write(&matrix), text);
        assert_eq!(read(text), Ok(matrix.clone()));
        let other =
            "%%matrixmarket MATRIX coordinate integer general\r\n% made by hand\r\n\r\n2 3 2\r\n 2 1 0\r\n1 3 -7";
        assert_eq!(read(other), Ok(matrix));
    }

    #[test]
    fn patterns_and_symmetric_matrices() {
        let pattern = "%%MatrixMarket matrix coordinate pattern symmetric\n3 3 2\n2 1\n3 3\n";
        assert_eq!(read(pattern).unwrap().to_triples(), [(0, 1, 1), (1, 0, 1), (2, 2, 1)]);
    }

    #[test]
    fn what_is_no_sheet() {
        let general = |rest: &str| read(&format!("{BANNER}\n{rest}")).unwrap_err();
        assert!(read("1 1 0\n").unwrap_err().starts_with("the first line of a Matrix Market file"));
        assert!(read("%%MatrixMarket matrix array real general\n")
            .unwrap_err()
            .starts_with("only coordinate matrices"));
        assert_eq!(general(""), "the line with rows, columns and entries is missing");
        assert_eq!(general("2 2\n"), "line 2: 3 whole numbers are due, and not \"2 2\"");
        assert_eq!(general("2 2 1\n0 1 5\n"), "line 3: rows and columns are counted from 1");
        assert_eq!(general("2 2 1\n1 1 1.5\n"), "line 3: \"1.5\" is no whole number of 32 bits");
        assert_eq!(general("2 2 2\n1 1 1\n1 1 2\n"), "line 4: row 1 and column 1 stand twice");
        assert_eq!(general("2 2 2\n1 1 1\n"), "1 entries stand there, and line 2 says 2");
        assert!(general("2 2 1\n3 1 1\n").starts_with("A row or column lies past the edge"));
        assert!(general("1001 2 0\n").starts_with("The shapes do not fit"));
    }
}
