//! Where the parts of a matrix and of a store stand in their words. What reads them is for words that the library has
//! accepted.
//!
//! A matrix of R rows, C columns and N entries is 1 and the revision; 2, R, C; R+1 and the row starts; N and the column
//! numbers; N and the values. A store is, slot by slot, a count of words and the matrix, then zeros.

use crate::SLOTS;
use std::ops::Range;

const REVISION_AT: usize = 1;
const GRID_AT: usize = 2;
const ROWS_AT: usize = 3;
const COLS_AT: usize = 4;
const STARTS_AT: usize = 6;

/// The words of a matrix of so many rows and entries.
pub const fn size_of(rows: usize, entries: usize) -> usize {
    rows + 2 * entries + 9
}

pub fn revision(words: &[u32]) -> u32 {
    words[REVISION_AT]
}

/// The words of shape and entries: all but the revision's. Equal grids have equal ones.
pub fn grid(words: &[u32]) -> &[u32] {
    &words[GRID_AT..]
}

pub fn rows(words: &[u32]) -> u32 {
    words[ROWS_AT]
}

pub fn cols(words: &[u32]) -> u32 {
    words[COLS_AT]
}

/// The number of entries before row i, where i may be the number of rows.
pub fn row_start(words: &[u32], i: u32) -> usize {
    words[STARTS_AT + i as usize] as usize
}

/// The entries of row i, by their positions among all.
pub fn row_positions(words: &[u32], i: u32) -> Range<usize> {
    row_start(words, i)..row_start(words, i + 1)
}

pub fn entries(words: &[u32]) -> usize {
    row_start(words, rows(words))
}

pub fn column_at(words: &[u32], position: usize) -> u32 {
    words[columns_at(words) + position]
}

pub fn value_at(words: &[u32], position: usize) -> i32 {
    words[columns_at(words) + entries(words) + 1 + position] as i32
}

/// The words of the matrix, without spare words.
pub fn size(words: &[u32]) -> usize {
    size_of(rows(words) as usize, entries(words))
}

fn columns_at(words: &[u32]) -> usize {
    STARTS_AT + rows(words) as usize + 2
}

/// The words of a matrix of revision 0, whose entries are given row by row, in rising columns.
pub fn encode(rows: u32, cols: u32, entries: &[(u32, u32, i32)]) -> Vec<u32> {
    let mut words = Vec::with_capacity(size_of(rows as usize, entries.len()));
    words.extend([1, 0, 2, rows, cols, rows + 1]);
    words.extend((0..=rows).map(|i| entries.partition_point(|&(row, ..)| row < i) as u32));
    words.push(entries.len() as u32);
    words.extend(entries.iter().map(|&(_, col, _)| col));
    words.push(entries.len() as u32);
    words.extend(entries.iter().map(|&(.., value)| value as u32));
    words
}

/// The words of each slot's matrix. An empty slot has none.
pub fn sections(store: &[u32]) -> [&[u32]; SLOTS] {
    let mut rest = store;
    std::array::from_fn(|_| {
        let matrix = &rest[1..][..rest[0] as usize];
        rest = &rest[1 + matrix.len()..];
        matrix
    })
}

/// The words of a store with these matrices, without the zeros at the end.
pub fn encode_sections(sections: &[&[u32]; SLOTS]) -> Vec<u32> {
    let mut words = Vec::new();
    for matrix in sections {
        words.push(matrix.len() as u32);
        words.extend_from_slice(matrix);
    }
    words
}
