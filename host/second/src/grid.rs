//! A plain grid of cells, and how a sheet is written in words.

use crate::fault::Fault;
use std::collections::BTreeMap;

/// Document 02, A6: "Raise rows, columns and index-list length from 512 to 1,000 each; entries stay at 2,048." A12: "the
/// largest sheet 5,105 words".
pub const MAX_SIDE: u32 = 1000;
pub const MAX_ENTRIES: usize = 2048;
pub const MAX_LIST: usize = 1000;
pub const MAX_WORDS: usize = 5105;

#[derive(Clone, PartialEq, Eq, Debug)]
pub struct Grid {
    pub revision: u32,
    pub rows: u32,
    pub cols: u32,
    pub cells: BTreeMap<(u32, u32), i32>,
}

impl Grid {
    pub fn empty(rows: u32, cols: u32) -> Self {
        Grid { revision: 0, rows, cols, cells: BTreeMap::new() }
    }

    pub fn shape(&self) -> (u32, u32) {
        (self.rows, self.cols)
    }

    pub fn get(&self, i: u32, j: u32) -> Option<i32> {
        self.cells.get(&(i, j)).copied()
    }

    /// The number of words of its sheet.
    pub fn size(&self) -> usize {
        self.rows as usize + 2 * self.cells.len() + 9
    }

    /// The words before the column numbers, and before the values.
    pub fn columns_at(&self) -> usize {
        self.rows as usize + 8
    }

    pub fn values_at(&self) -> usize {
        self.columns_at() + self.cells.len() + 1
    }

    /// The entries of row i, and of the rows before it.
    pub fn in_row(&self, i: u32) -> usize {
        self.cells.keys().filter(|(row, _)| *row == i).count()
    }

    pub fn before_row(&self, i: u32) -> usize {
        self.cells.keys().filter(|(row, _)| *row < i).count()
    }

    /// The entries before the cell, row by row and from left to right: where its entry is, or would be put.
    pub fn position(&self, i: u32, j: u32) -> usize {
        self.cells.range(..(i, j)).count()
    }

    pub fn transposed(&self) -> Self {
        let cells = self.cells.iter().map(|(&(i, j), &value)| ((j, i), value)).collect();
        Grid { revision: self.revision, rows: self.cols, cols: self.rows, cells }
    }

    pub fn transposed_if(&self, condition: bool) -> Self {
        if condition {
            self.transposed()
        } else {
            self.clone()
        }
    }

    /// The one writing of the grid. Document 02, A12: "a new first section before the others: 1, then a revision number".
    pub fn words(&self) -> Vec<u32> {
        let count = self.cells.len() as u32;
        let mut words = vec![1, self.revision, 2, self.rows, self.cols, self.rows + 1];
        let mut in_row = vec![0; self.rows as usize];
        for &(i, _) in self.cells.keys() {
            in_row[i as usize] += 1;
        }
        let mut start = 0;
        words.push(start);
        for entries in in_row {
            start += entries;
            words.push(start);
        }
        words.push(count);
        words.extend(self.cells.keys().map(|&(_, j)| j));
        words.push(count);
        words.extend(self.cells.values().map(|&value| value as u32));
        words
    }

    /// The grid whose sheet stands at the front of the words, if there is one.
    pub fn read(words: &[u32], fault: Fault) -> Option<Self> {
        let (&[count, revision], words) = words.split_first_chunk()?;
        if count != 1 {
            return None;
        }
        let word = |at: usize| words.get(at).copied();
        if word(0)? != 2 {
            return None;
        }
        let (rows, cols) = (word(1)?, word(2)?);
        if !is_shape(rows, cols, fault) {
            return None;
        }
        if word(3)? != rows + 1 {
            return None;
        }
        let height = rows as usize;
        let starts = words.get(4..5 + height)?;
        let entries = word(5 + height)? as usize;
        if entries > MAX_ENTRIES + usize::from(fault == Fault::MoreEntriesAccepted) {
            return None;
        }
        let columns = words.get(6 + height..6 + height + entries)?;
        if word(6 + height + entries)? as usize != entries && fault != Fault::SecondCountFree {
            return None;
        }
        let values = words.get(7 + height + entries..7 + height + 2 * entries)?;

        let last = starts[height] as usize;
        if starts[0] != 0 || last > entries {
            return None;
        }
        if last < entries && fault != Fault::LastStartFree {
            return None;
        }
        let mut grid = Grid { revision, ..Grid::empty(rows, cols) };
        for i in 0..height {
            let (from, to) = (starts[i] as usize, starts[i + 1] as usize);
            if from > to {
                if fault == Fault::FallingStartsAccepted {
                    continue;
                }
                return None;
            }
            let mut before = None;
            for (&column, &value) in columns.get(from..to)?.iter().zip(values.get(from..to)?) {
                if column >= cols + u32::from(fault == Fault::ColumnAtEndAccepted) {
                    return None;
                }
                let rises = match before {
                    None => true,
                    Some(other) if fault == Fault::EqualColumnsAccepted => other <= column,
                    Some(other) => other < column,
                };
                if !rises {
                    return None;
                }
                before = Some(column);
                grid.cells.insert((i as u32, column), value as i32);
            }
        }
        Some(grid)
    }
}

/// Whether the numbers of rows and of columns are from 1 to the largest.
pub fn is_shape(rows: u32, cols: u32, fault: Fault) -> bool {
    let most_rows = MAX_SIDE + u32::from(fault == Fault::MoreRowsAccepted);
    let most_cols = match fault {
        Fault::MoreColumnsAccepted => MAX_SIDE + 1,
        Fault::MostColumnsRefused => MAX_SIDE - 1,
        _ => MAX_SIDE,
    };
    (1..=most_rows).contains(&rows) && (1..=most_cols).contains(&cols)
}

#[cfg(test)]
mod tests {
    use super::*;

    const STRIP: [u32; 16] = [1, 0, 2, 1, 4, 2, 0, 3, 3, 0, 1, 3, 3, 10, 20, 40];

    #[test]
    fn the_whole_strip() {
        let mut strip = Grid::empty(1, 4);
        strip.cells.extend([((0, 0), 10), ((0, 1), 20), ((0, 3), 40)]);
        assert_eq!(strip.words(), STRIP);
        assert_eq!(strip.size(), STRIP.len());
        assert_eq!(Grid::read(&STRIP, Fault::None), Some(strip));
    }

    /// Any word is a revision; the strip of before, without one, is no sheet.
    #[test]
    fn revisions() {
        for revision in [1, 2, u32::MAX] {
            let mut words = STRIP;
            words[1] = revision;
            let grid = Grid::read(&words, Fault::None).expect("a valid sheet");
            assert_eq!(grid.revision, revision);
            assert_eq!(grid.words(), words);
        }
        assert_eq!(Grid::read(&STRIP[2..], Fault::None), None);
    }

    #[test]
    fn a_negative_value() {
        let mut grid = Grid::empty(1, 1);
        grid.cells.insert((0, 0), -5);
        assert_eq!(grid.words().last(), Some(&4_294_967_291));
    }

    /// Document 02, A11: "the entry's position among the N, counted from 0, or, for an absent cell, the position where it
    /// would be put to keep the order".
    #[test]
    fn positions() {
        let mut grid = Grid::empty(3, 3);
        grid.cells.extend([((0, 2), 5), ((2, 0), 0), ((2, 1), 7)]);
        let row = |i| [0, 1, 2].map(|j| grid.position(i, j));
        assert_eq!([row(0), row(1), row(2)], [[0, 0, 0], [1, 1, 1], [1, 2, 3]]);
    }

    #[test]
    fn the_largest_sheet() {
        let mut grid = Grid::empty(1000, 1000);
        grid.cells.extend((0..2048).map(|k| ((999 - k / 4, 999 - k % 4), 0)));
        assert_eq!(grid.words().len(), MAX_WORDS);
        assert_eq!(Grid::read(&grid.words(), Fault::None), Some(grid));
    }

    #[test]
    fn a_cut_or_changed_strip_is_no_sheet() {
        for length in 0..STRIP.len() {
            assert_eq!(Grid::read(&STRIP[..length], Fault::None), None);
        }
        let damage = [(0, 2), (2, 3), (3, 0), (3, 1001), (5, 3), (6, 1), (7, 2), (8, 4), (10, 0), (11, 4), (12, 2)];
        for (at, word) in damage {
            let mut words = STRIP;
            words[at] = word;
            assert_eq!(Grid::read(&words, Fault::None), None, "word {at} changed to {word}");
        }
    }
}
