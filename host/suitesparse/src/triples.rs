//! Matrices and vectors from lists of entries, and back.

use crate::raw::objects::{Matrix, Tuples, Vector};
use crate::raw::Error;

impl Matrix {
    /// With entries of row, column and value, in any order; no position may come twice.
    pub fn from_triples(rows: u32, cols: u32, triples: &[(u32, u32, i32)]) -> Result<Self, Error> {
        let matrix = Matrix::new(u64::from(rows), u64::from(cols))?;
        let mut tuples = Tuples::default();
        for &(i, j, value) in triples {
            tuples.rows.push(u64::from(i));
            tuples.cols.push(u64::from(j));
            tuples.values.push(value);
        }
        matrix.build(&tuples)?;
        matrix.wait()?;
        Ok(matrix)
    }

    /// Row, column and value of each entry, row by row and from left to right.
    pub fn triples(&self) -> Result<Vec<(u32, u32, i32)>, Error> {
        let Tuples { rows, cols, values } = self.tuples()?;
        let places = rows.into_iter().zip(cols);
        let mut triples: Vec<_> = places.zip(values).map(|((i, j), value)| (i as u32, j as u32, value)).collect();
        triples.sort_unstable();
        Ok(triples)
    }
}

impl Vector {
    /// With entries of index and value, in any order; no index may come twice.
    pub fn from_pairs(size: u32, pairs: &[(u32, i32)]) -> Result<Self, Error> {
        let vector = Vector::new(u64::from(size))?;
        let indexes: Vec<u64> = pairs.iter().map(|pair| u64::from(pair.0)).collect();
        let values: Vec<i32> = pairs.iter().map(|pair| pair.1).collect();
        vector.build(&indexes, &values)?;
        vector.wait()?;
        Ok(vector)
    }

    /// Index and value of each entry, in order.
    pub fn pairs(&self) -> Result<Vec<(u32, i32)>, Error> {
        let (indexes, values) = self.tuples()?;
        let mut pairs: Vec<_> = indexes.into_iter().zip(values).map(|(j, value)| (j as u32, value)).collect();
        pairs.sort_unstable();
        Ok(pairs)
    }
}
