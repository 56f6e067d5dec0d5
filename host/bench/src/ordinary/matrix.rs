//! Matrices in words: the validity test, and a view of a valid one.

use std::ops::Range;

pub const MAX_SIDE: usize = 1000;
pub const MAX_ENTRIES: usize = 2048;

/// The words of a matrix beside its R rows and twice its N entries.
const FIXED_WORDS: usize = 9;

/// The words before the row starts: 1 and the revision; 2, R, C; R + 1.
pub const STARTS_AT: usize = 6;

/// The words of the largest matrix.
pub const MAX_WORDS: usize = size(MAX_SIDE, MAX_ENTRIES);

/// The words of a matrix.
pub const fn size(rows: usize, entries: usize) -> usize {
    rows + 2 * entries + FIXED_WORDS
}

/// A cell: its value, if it has one, and the position of its entry among all, or where that would be.
pub struct Cell {
    pub value: Option<u32>,
    pub position: usize,
}

/// The sections of a valid matrix.
#[derive(Clone, Copy)]
pub struct Matrix<'a> {
    pub revision: u32,
    pub cols: usize,
    pub starts: &'a [u32],
    pub columns: &'a [u32],
    pub values: &'a [u32],
}

/// The entries of one row.
#[derive(Clone, Copy)]
pub struct Row<'a> {
    pub columns: &'a [u32],
    pub values: &'a [u32],
}

pub fn side_valid(side: u32) -> bool {
    (1..=MAX_SIDE as u32).contains(&side)
}

impl<'a> Matrix<'a> {
    /// The matrix at the front of the words, if it is valid.
    pub fn parse(words: &'a [u32]) -> Option<Self> {
        let matrix = Self::sections(words)?;
        (matrix.starts_valid() && matrix.columns_valid()).then_some(matrix)
    }

    /// The sections, if shape, counts and size are in order.
    fn sections(words: &'a [u32]) -> Option<Self> {
        let (&[1, revision, 2, rows, cols, start_count], rest) = words.split_first_chunk()? else {
            return None;
        };
        if !side_valid(rows) || !side_valid(cols) || start_count != rows + 1 {
            return None;
        }
        let (starts, rest) = rest.split_at_checked(start_count as usize)?;
        let (&count, rest) = rest.split_first()?;
        if count as usize > MAX_ENTRIES {
            return None;
        }
        let (columns, rest) = rest.split_at_checked(count as usize)?;
        let (&count_again, rest) = rest.split_first()?;
        if count_again != count {
            return None;
        }
        let values = rest.get(..count as usize)?;
        Some(Matrix { revision, cols: cols as usize, starts, columns, values })
    }

    fn starts_valid(&self) -> bool {
        self.starts[0] == 0 && self.starts[self.rows()] as usize == self.entries() && self.starts.is_sorted()
    }

    fn columns_valid(&self) -> bool {
        self.starts.windows(2).all(|pair| {
            let columns = &self.columns[pair[0] as usize..pair[1] as usize];
            columns.is_sorted_by(|left, right| left < right)
                && columns.last().is_none_or(|&last| (last as usize) < self.cols)
        })
    }

    pub fn rows(&self) -> usize {
        self.starts.len() - 1
    }

    pub fn shape(&self) -> (usize, usize) {
        (self.rows(), self.cols)
    }

    pub fn entries(&self) -> usize {
        self.columns.len()
    }

    /// The revision after a call that writes into it.
    pub fn next_revision(&self) -> u32 {
        self.revision.wrapping_add(1)
    }

    /// Its size in words.
    pub fn size(&self) -> usize {
        size(self.rows(), self.entries())
    }

    /// The words before its column numbers.
    pub fn columns_at(&self) -> usize {
        STARTS_AT + self.rows() + 2
    }

    /// The words before its values.
    pub fn values_at(&self) -> usize {
        self.columns_at() + self.entries() + 1
    }

    /// The positions of the entries of row i.
    pub fn span(&self, i: usize) -> Range<usize> {
        self.starts[i] as usize..self.starts[i + 1] as usize
    }

    pub fn row(&self, i: usize) -> Row<'a> {
        let span = self.span(i);
        Row { columns: &self.columns[span.clone()], values: &self.values[span] }
    }

    /// The cell at row i and column j.
    pub fn cell(&self, i: usize, j: u32) -> Cell {
        let start = self.starts[i] as usize;
        match self.row(i).columns.binary_search(&j) {
            Ok(at) => Cell { value: Some(self.values[start + at]), position: start + at },
            Err(at) => Cell { value: None, position: start + at },
        }
    }

    /// Its words, to the front of the buffer.
    pub fn write(&self, buffer: &mut [u32]) {
        let (rows, entries) = (self.rows(), self.entries());
        let (columns, values) = (self.columns_at(), self.values_at());
        write_front(buffer, self.revision, rows as u32, self.cols as u32);
        buffer[STARTS_AT..=STARTS_AT + rows].copy_from_slice(self.starts);
        buffer[columns - 1] = entries as u32;
        buffer[columns..columns + entries].copy_from_slice(self.columns);
        buffer[values - 1] = entries as u32;
        buffer[values..values + entries].copy_from_slice(self.values);
    }
}

impl<'a> Row<'a> {
    pub fn iter(self) -> impl Iterator<Item = (u32, u32)> + 'a {
        self.columns.iter().copied().zip(self.values.iter().copied())
    }
}

/// The words of a matrix without entries, to the whole of the buffer.
pub fn write_empty(buffer: &mut [u32], rows: u32, cols: u32) {
    buffer.fill(0);
    write_front(buffer, 0, rows, cols);
}

/// The words before the row starts.
pub fn write_front(buffer: &mut [u32], revision: u32, rows: u32, cols: u32) {
    buffer[..STARTS_AT].copy_from_slice(&[1, revision, 2, rows, cols, rows + 1]);
}
