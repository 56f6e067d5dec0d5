//! Walking over two rows and a mask's row by their entries.

use super::matrix::Row;
use std::cmp::Ordering;

/// Visits each column where at least one of two rows has an entry, in order, with the two values.
pub fn merge<E>(
    x: Row,
    y: Row,
    mut visit: impl FnMut(u32, Option<u32>, Option<u32>) -> Result<(), E>,
) -> Result<(), E> {
    let (mut p, mut q) = (0, 0);
    while p < x.columns.len() && q < y.columns.len() {
        let (i, j) = (x.columns[p], y.columns[q]);
        match i.cmp(&j) {
            Ordering::Less => {
                visit(i, Some(x.values[p]), None)?;
                p += 1;
            }
            Ordering::Greater => {
                visit(j, None, Some(y.values[q]))?;
                q += 1;
            }
            Ordering::Equal => {
                visit(i, Some(x.values[p]), Some(y.values[q]))?;
                p += 1;
                q += 1;
            }
        }
    }
    for at in p..x.columns.len() {
        visit(x.columns[at], Some(x.values[at]), None)?;
    }
    for at in q..y.columns.len() {
        visit(y.columns[at], None, Some(y.values[at]))?;
    }
    Ok(())
}

/// A mask's row, asked about rising columns.
pub struct MaskRow<'a> {
    row: Row<'a>,
    structural: bool,
    at: usize,
}

impl<'a> MaskRow<'a> {
    pub fn new(row: Row<'a>, structural: bool) -> Self {
        MaskRow { row, structural, at: 0 }
    }

    /// Whether the mask selects the column.
    pub fn selects(&mut self, column: u32) -> bool {
        while self.row.columns.get(self.at).is_some_and(|&next| next < column) {
            self.at += 1;
        }
        self.row.columns.get(self.at) == Some(&column) && (self.structural || self.row.values[self.at] != 0)
    }
}
