//! The entries of a matrix, one after the other.

use crate::layout;
use std::iter::FusedIterator;

/// The entries of a matrix as (row, column, value): row by row, in rising columns. Made by
/// [`Matrix::iter`](crate::Matrix::iter).
///
/// ```
/// use ostrubel::{Error, Matrix};
///
/// let matrix = Matrix::from_triples(2, 2, [(1, 0, 5), (0, 1, 2)])?;
/// assert_eq!(matrix.iter().len(), 2);
/// for (row, col, value) in &matrix {
///     assert_eq!(matrix.get(row, col)?, Some(value));
/// }
/// # Ok::<(), Error>(())
/// ```
#[derive(Clone, Debug)]
pub struct Entries<'a> {
    words: &'a [u32],
    cursor: Cursor,
}

impl<'a> Entries<'a> {
    /// The entries of the matrix that the words are.
    pub(crate) fn new(words: &'a [u32]) -> Entries<'a> {
        Entries { words, cursor: Cursor::default() }
    }
}

impl Iterator for Entries<'_> {
    type Item = (u32, u32, i32);

    fn next(&mut self) -> Option<(u32, u32, i32)> {
        self.cursor.next(self.words)
    }

    fn size_hint(&self) -> (usize, Option<usize>) {
        self.cursor.size_hint(self.words)
    }
}

impl ExactSizeIterator for Entries<'_> {}

impl FusedIterator for Entries<'_> {}

/// The entries of a matrix that is given away, as [`Entries`] has them. Made by `into_iter`.
///
/// ```
/// use ostrubel::{Error, Matrix};
///
/// let matrix = Matrix::from_triples(2, 2, [(1, 0, 5), (0, 1, 2)])?;
/// let values: Vec<i32> = matrix.into_iter().map(|(_, _, value)| value).collect();
/// assert_eq!(values, [2, 5]);
/// # Ok::<(), Error>(())
/// ```
#[derive(Clone, Debug)]
pub struct IntoEntries {
    words: Vec<u32>,
    cursor: Cursor,
}

impl IntoEntries {
    /// The entries of the matrix that the words are.
    pub(crate) fn new(words: Vec<u32>) -> IntoEntries {
        IntoEntries { words, cursor: Cursor::default() }
    }
}

impl Iterator for IntoEntries {
    type Item = (u32, u32, i32);

    fn next(&mut self) -> Option<(u32, u32, i32)> {
        self.cursor.next(&self.words)
    }

    fn size_hint(&self) -> (usize, Option<usize>) {
        self.cursor.size_hint(&self.words)
    }
}

impl ExactSizeIterator for IntoEntries {}

impl FusedIterator for IntoEntries {}

/// How far the entries have been given.
#[derive(Clone, Debug, Default)]
struct Cursor {
    row: u32,
    position: usize,
}

impl Cursor {
    fn next(&mut self, words: &[u32]) -> Option<(u32, u32, i32)> {
        let at = self.position;
        if at == layout::entries(words) {
            return None;
        }
        while at == layout::row_start(words, self.row + 1) {
            self.row += 1;
        }
        self.position += 1;
        Some((self.row, layout::column_at(words, at), layout::value_at(words, at)))
    }

    fn size_hint(&self, words: &[u32]) -> (usize, Option<usize>) {
        let left = layout::entries(words) - self.position;
        (left, Some(left))
    }
}
