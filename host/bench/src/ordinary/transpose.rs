//! Transposing by counting.

use super::matrix::Matrix;

/// The transpose of a matrix, its sections at the front of a buffer for the largest one.
pub fn transpose<'w>(a: Matrix, buffer: &'w mut [u32]) -> Matrix<'w> {
    let (starts, rest) = buffer.split_at_mut(a.cols + 1);
    let (columns, rest) = rest.split_at_mut(a.entries());
    let values = &mut rest[..a.entries()];
    starts.fill(0);
    for &j in a.columns {
        starts[j as usize + 1] += 1;
    }
    for j in 0..a.cols {
        starts[j + 1] += starts[j];
    }
    // Each start is moved on as the entries of its row are put; afterwards it is the start of the next row.
    for i in 0..a.rows() {
        for (j, value) in a.row(i).iter() {
            let next = &mut starts[j as usize];
            columns[*next as usize] = i as u32;
            values[*next as usize] = value;
            *next += 1;
        }
    }
    starts.copy_within(..a.cols, 1);
    starts[0] = 0;
    Matrix { revision: a.revision, cols: a.rows(), starts, columns, values }
}
