//! One row of a result: as a list of entries, and as a dense row in which entries are added up.

use super::matrix::{Row, MAX_SIDE};
use super::operators::BinaryOp;

/// The entries of a row, on the stack.
pub struct RowBuffer {
    columns: [u32; MAX_SIDE],
    values: [u32; MAX_SIDE],
    entries: usize,
}

impl RowBuffer {
    pub fn new() -> Self {
        RowBuffer { columns: [0; MAX_SIDE], values: [0; MAX_SIDE], entries: 0 }
    }

    pub fn clear(&mut self) {
        self.entries = 0;
    }

    pub fn push(&mut self, column: u32, value: u32) {
        self.columns[self.entries] = column;
        self.values[self.entries] = value;
        self.entries += 1;
    }

    pub fn row(&self) -> Row<'_> {
        Row { columns: &self.columns[..self.entries], values: &self.values[..self.entries] }
    }
}

/// A dense row: a value for each present column, and a list of these columns in the order in which they came.
pub struct DenseRow {
    values: [u32; MAX_SIDE],
    present: [bool; MAX_SIDE],
    touched: [u32; MAX_SIDE],
    count: usize,
}

impl DenseRow {
    pub fn new() -> Self {
        DenseRow { values: [0; MAX_SIDE], present: [false; MAX_SIDE], touched: [0; MAX_SIDE], count: 0 }
    }

    /// Puts a value at a column, or combines it with the one that is there.
    pub fn add(&mut self, column: u32, value: u32, monoid: BinaryOp) {
        let at = column as usize;
        if self.present[at] {
            self.values[at] = monoid.apply(self.values[at], value);
        } else {
            self.put(column, value);
        }
    }

    /// Puts a value at a column that has none.
    pub fn put(&mut self, column: u32, value: u32) {
        let at = column as usize;
        self.values[at] = value;
        self.present[at] = true;
        self.touched[self.count] = column;
        self.count += 1;
    }

    /// Moves the entries, in order, to a row of `cols` columns: few are sorted, many are found by a walk over all
    /// columns. No column is present afterwards.
    pub fn drain(&mut self, cols: usize, row: &mut RowBuffer) {
        if self.count * 8 < cols {
            self.touched[..self.count].sort_unstable();
            for &column in &self.touched[..self.count] {
                row.push(column, self.values[column as usize]);
                self.present[column as usize] = false;
            }
        } else {
            for column in 0..cols {
                if self.present[column] {
                    row.push(column as u32, self.values[column]);
                    self.present[column] = false;
                }
            }
        }
        self.count = 0;
    }
}
