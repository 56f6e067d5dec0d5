//! The result of an operation while it is put together in the workspace.

use super::answer::{Refusal, Result};
use super::matrix::{Matrix, Row, MAX_ENTRIES, MAX_SIDE};

/// The sections of a result, each as long as it may get, and how much of them is written.
pub struct Output<'w> {
    starts: &'w mut [u32],
    columns: &'w mut [u32],
    values: &'w mut [u32],
    rows: usize,
    entries: usize,
}

impl<'w> Output<'w> {
    /// A result without rows, in a buffer for the largest matrix.
    pub fn new(buffer: &'w mut [u32]) -> Self {
        let (starts, rest) = buffer.split_at_mut(MAX_SIDE + 1);
        let (columns, rest) = rest.split_at_mut(MAX_ENTRIES);
        let values = &mut rest[..MAX_ENTRIES];
        starts[0] = 0;
        Output { starts, columns, values, rows: 0, entries: 0 }
    }

    /// The sections of a result that is in a buffer: row starts, columns and values.
    pub fn sections(buffer: &[u32], rows: usize, entries: usize) -> (&[u32], &[u32], &[u32]) {
        let (starts, rest) = buffer.split_at(MAX_SIDE + 1);
        let (columns, values) = rest.split_at(MAX_ENTRIES);
        (&starts[..=rows], &columns[..entries], &values[..entries])
    }

    pub fn push(&mut self, column: u32, value: u32) -> Result<()> {
        if self.entries == MAX_ENTRIES {
            return Err(Refusal::TooManyEntries);
        }
        self.columns[self.entries] = column;
        self.values[self.entries] = value;
        self.entries += 1;
        Ok(())
    }

    pub fn push_row(&mut self, row: Row) -> Result<()> {
        let end = self.entries + row.columns.len();
        if end > MAX_ENTRIES {
            return Err(Refusal::TooManyEntries);
        }
        self.columns[self.entries..end].copy_from_slice(row.columns);
        self.values[self.entries..end].copy_from_slice(row.values);
        self.entries = end;
        Ok(())
    }

    pub fn end_row(&mut self) {
        self.rows += 1;
        self.starts[self.rows] = self.entries as u32;
    }

    /// The result, when all rows have ended.
    pub fn finish(self, revision: u32, cols: usize) -> Matrix<'w> {
        Matrix {
            revision,
            cols,
            starts: &self.starts[..=self.rows],
            columns: &self.columns[..self.entries],
            values: &self.values[..self.entries],
        }
    }
}
