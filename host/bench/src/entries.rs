//! Matrices as lists of entries, and as words.

use second::rng::Rng;
use std::collections::BTreeMap;

/// A shape, and the values of the present cells by row and column.
#[derive(Clone, Debug, PartialEq, Eq)]
pub struct Entries {
    pub rows: usize,
    pub cols: usize,
    pub cells: BTreeMap<(u32, u32), i32>,
}

impl Entries {
    pub fn new(rows: usize, cols: usize) -> Self {
        Entries { rows, cols, cells: BTreeMap::new() }
    }

    /// With this many entries at random positions.
    pub fn random(rng: &mut Rng, rows: usize, cols: usize, count: usize) -> Self {
        Entries::new(rows, cols).filled(rng, count)
    }

    /// Half of the positions are among those of `other`, the rest at random; as many entries as it has.
    pub fn half_of(rng: &mut Rng, other: &Entries) -> Self {
        let mut positions: Vec<(u32, u32)> = other.cells.keys().copied().collect();
        rng.shuffle(&mut positions);
        let count = positions.len();
        let mut entries = Entries::new(other.rows, other.cols);
        for &position in &positions[..count / 2] {
            entries.cells.insert(position, value(rng));
        }
        entries.filled(rng, count)
    }

    /// The positions of `other`, with other values.
    pub fn same_positions(rng: &mut Rng, other: &Entries) -> Self {
        let cells = other.cells.keys().map(|&position| (position, value(rng))).collect();
        Entries { cells, ..*other }
    }

    /// One value in four is 0.
    pub fn with_zeros(mut self, rng: &mut Rng) -> Self {
        for value in self.cells.values_mut() {
            if rng.below(4) == 0 {
                *value = 0;
            }
        }
        self
    }

    /// The same entries in so many times as many rows and columns, each row and column number so many times as large. A
    /// vector keeps its one row.
    pub fn spread(self, times: usize) -> Self {
        let number = |at: u32| at * times as u32;
        let rows = if self.rows == 1 { 1 } else { self.rows * times };
        let cells = self.cells.iter().map(|(&(i, j), &value)| ((number(i), number(j)), value)).collect();
        Entries { rows, cols: self.cols * times, cells }
    }

    fn filled(mut self, rng: &mut Rng, count: usize) -> Self {
        while self.cells.len() < count {
            let position = (rng.below(self.rows) as u32, rng.below(self.cols) as u32);
            self.cells.entry(position).or_insert_with(|| value(rng));
        }
        self
    }

    /// The matrix in the library's words.
    pub fn words(&self) -> Vec<u32> {
        let count = self.cells.len() as u32;
        let mut words = vec![1, 0, 2, self.rows as u32, self.cols as u32, self.rows as u32 + 1];
        let mut rows = self.cells.keys().map(|position| position.0 as usize).peekable();
        let mut start = 0;
        for i in 0..=self.rows {
            while rows.next_if(|&row| row < i).is_some() {
                start += 1;
            }
            words.push(start);
        }
        words.push(count);
        words.extend(self.cells.keys().map(|position| position.1));
        words.push(count);
        words.extend(self.cells.values().map(|&value| value as u32));
        words
    }

    /// The matrix at the front of words that are known to be valid.
    pub fn read(words: &[u32]) -> Self {
        let (rows, cols) = (words[3] as usize, words[4] as usize);
        let starts = &words[6..];
        let count = starts[rows + 1] as usize;
        let columns = &starts[rows + 2..rows + 2 + count];
        let values = &starts[rows + 3 + count..rows + 3 + 2 * count];
        let mut entries = Entries::new(rows, cols);
        for i in 0..rows {
            for at in starts[i] as usize..starts[i + 1] as usize {
                entries.cells.insert((i as u32, columns[at]), values[at] as i32);
            }
        }
        entries
    }
}

fn value(rng: &mut Rng) -> i32 {
    rng.below(2001) as i32 - 1000
}

/// Two matrices of `side` rows and columns whose product has as many entries as each of them: blocks of 4 by 4 along
/// the diagonal, their rows and columns in random order.
pub fn blocks(rng: &mut Rng, side: usize) -> (Entries, Entries) {
    let (outer, inner, other) = (rng.permutation(side), rng.permutation(side), rng.permutation(side));
    let (mut a, mut b) = (Entries::new(side, side), Entries::new(side, side));
    for i in 0..side {
        let block = i / 4 * 4;
        for j in block..block + 4 {
            a.cells.insert((outer[i], inner[j]), value(rng));
            b.cells.insert((inner[i], other[j]), value(rng));
        }
    }
    (a, b)
}
