//! The final C of a call whose inputs agree, row by row: a row of T, and its write-back.

use super::answer::Result;
use super::dense::{DenseRow, RowBuffer};
use super::matrix::{Matrix, Row, MAX_SIDE, MAX_WORDS};
use super::merge::{merge, MaskRow};
use super::operators::{ApplyOp, BinaryOp, SelectOp};
use super::output::Output;
use super::request::{Inputs, Operation, Request};
use super::transpose::transpose;
use std::convert::Infallible;

/// The final C, in the workspace. Refused by 10.
pub fn compute<'w>(request: &Request, inputs: &Inputs, work: &'w mut [u32]) -> Result<Matrix<'w>> {
    let (result, rest) = work.split_at_mut(MAX_WORDS);
    let (first, second) = rest.split_at_mut(MAX_WORDS);
    let a = if request.transpose_first { transpose(inputs.a, first) } else { inputs.a };
    let b = if request.transpose_second { transpose(inputs.b, second) } else { inputs.b };
    let write = Write { request, mask: inputs.mask, c: inputs.c };
    match request.operation {
        Operation::Mxm { monoid, op } | Operation::Vxm { monoid, op } => {
            let mut dense = DenseRow::new();
            write.rows(result, |i, t| product_row(monoid, op, a.row(i), b, &mut dense, t))
        }
        Operation::EwiseMult(op) => write.rows(result, |i, t| intersection_row(op, a.row(i), b.row(i), t)),
        Operation::EwiseAdd(op) => write.rows(result, |i, t| union_row(op, a.row(i), b.row(i), t)),
        Operation::Apply(op) => write.rows(result, |i, t| apply_row(op, i as u32, a.row(i), t)),
        Operation::Extract { rows, cols } => {
            let mut dense = DenseRow::new();
            let positions = Positions::new(cols);
            write.rows(result, |i, t| extract_row(a.row(rows[i] as usize), &positions, &mut dense, t))
        }
        Operation::Select(op) => write.rows(result, |i, t| select_row(op, i as u32, a.row(i), t)),
        Operation::ReduceRows(monoid) => write.rows(result, |_, t| row_totals(monoid, a, t)),
        Operation::Assign { rows, cols } => {
            let mut dense = DenseRow::new();
            let places = [Positions::new(rows), Positions::new(cols)];
            let keeps = request.accumulator.is_none();
            write.rows(result, |i, t| assign_row(a, cols, inputs.c.row(i), i, &places, keeps, &mut dense, t))
        }
        Operation::Kronecker(op) => {
            let height = b.rows();
            write.rows(result, |i, t| kronecker_row(op, a.row(i / height), b.row(i % height), b.cols, t))
        }
    }
}

/// How the rows of T are written back.
struct Write<'a> {
    request: &'a Request<'a>,
    mask: Option<Matrix<'a>>,
    c: Matrix<'a>,
}

impl Write<'_> {
    /// The final C from the rows of T.
    fn rows<'w>(&self, buffer: &'w mut [u32], mut result: impl FnMut(usize, &mut RowBuffer)) -> Result<Matrix<'w>> {
        let mut output = Output::new(buffer);
        let mut t = RowBuffer::new();
        for i in 0..self.c.rows() {
            t.clear();
            result(i, &mut t);
            if self.request.is_plain() {
                output.push_row(t.row())?;
            } else {
                self.row(i, t.row(), &mut output)?;
            }
            output.end_row();
        }
        Ok(output.finish(self.c.next_revision(), self.c.cols))
    }

    /// Inside the mask C takes Z; outside it keeps its entry, or loses it under replace.
    fn row(&self, i: usize, t: Row, output: &mut Output) -> Result<()> {
        let Request { replace, complement, structural, accumulator, .. } = *self.request;
        let mut mask = self.mask.map(|mask| MaskRow::new(mask.row(i), structural));
        merge(self.c.row(i), t, |j, c, t| {
            let selected = mask.as_mut().is_none_or(|mask| mask.selects(j));
            let value = if selected != complement {
                accumulator.map_or(t, |op| op.unite(c, t))
            } else if replace {
                None
            } else {
                c
            };
            value.map_or(Ok(()), |value| output.push(j, value))
        })
    }
}

/// Adds up the rows of b that the entries of a row name, each times its entry.
pub fn product_row(monoid: BinaryOp, op: BinaryOp, a: Row, b: Matrix, dense: &mut DenseRow, t: &mut RowBuffer) {
    for (k, x) in a.iter() {
        for (j, y) in b.row(k as usize).iter() {
            dense.add(j, op.apply(x, y), monoid);
        }
    }
    dense.drain(b.cols, t);
}

fn intersection_row(op: BinaryOp, a: Row, b: Row, t: &mut RowBuffer) {
    visit_both(a, b, |j, x, y| {
        if let (Some(x), Some(y)) = (x, y) {
            t.push(j, op.apply(x, y));
        }
    });
}

pub fn union_row(op: BinaryOp, a: Row, b: Row, t: &mut RowBuffer) {
    visit_both(a, b, |j, x, y| {
        if let Some(value) = op.unite(x, y) {
            t.push(j, value);
        }
    });
}

/// A merge that cannot fail.
fn visit_both(a: Row, b: Row, mut visit: impl FnMut(u32, Option<u32>, Option<u32>)) {
    let done: std::result::Result<(), Infallible> = merge(a, b, |j, x, y| {
        visit(j, x, y);
        Ok(())
    });
    let Ok(()) = done;
}

fn apply_row(op: ApplyOp, i: u32, a: Row, t: &mut RowBuffer) {
    for (j, x) in a.iter() {
        t.push(j, op.apply(x, i, j));
    }
}

fn select_row(op: SelectOp, i: u32, a: Row, t: &mut RowBuffer) {
    for (j, x) in a.iter() {
        if op.keeps(x, i, j) {
            t.push(j, x);
        }
    }
}

/// At each column the total of that row, where it has entries.
fn row_totals(monoid: BinaryOp, a: Matrix, t: &mut RowBuffer) {
    for j in 0..a.rows() {
        if let Some((&first, rest)) = a.row(j).values.split_first() {
            t.push(j as u32, add_up(monoid, first, rest));
        }
    }
}

/// x and then each of the values.
pub fn add_up(monoid: BinaryOp, x: u32, values: &[u32]) -> u32 {
    values.iter().fold(x, |sum, &value| monoid.apply(sum, value))
}

/// For each column of A the position in the index list at which it is named, if it is.
struct Positions {
    positions: [u32; MAX_SIDE],
    count: usize,
}

/// Of a column that the list does not name.
const NOT_NAMED: u32 = u32::MAX;

impl Positions {
    fn new(list: &[u32]) -> Self {
        let mut positions = [NOT_NAMED; MAX_SIDE];
        for (at, &column) in list.iter().enumerate() {
            positions[column as usize] = at as u32;
        }
        Positions { positions, count: list.len() }
    }
}

/// Puts each entry of a row at the position that names its column.
fn extract_row(a: Row, positions: &Positions, dense: &mut DenseRow, t: &mut RowBuffer) {
    for (k, x) in a.iter() {
        let j = positions.positions[k as usize];
        if j != NOT_NAMED {
            dense.put(j, x);
        }
    }
    dense.drain(positions.count, t);
}

/// A listed row: A's entries at the columns that the list has for them, and the old row's at the others where it `keeps`
/// them. A row that is not listed is the old one, or nothing.
#[allow(clippy::too_many_arguments)]
fn assign_row(
    a: Matrix,
    cols: &[u32],
    old: Row,
    i: usize,
    [rows, columns]: &[Positions; 2],
    keeps: bool,
    dense: &mut DenseRow,
    t: &mut RowBuffer,
) {
    let k = rows.positions[i];
    if k == NOT_NAMED {
        old.iter().filter(|_| keeps).for_each(|(j, x)| t.push(j, x));
        return;
    }
    for (l, x) in a.row(k as usize).iter() {
        dense.put(cols[l as usize], x);
    }
    for (j, x) in old.iter() {
        if keeps && columns.positions[j as usize] == NOT_NAMED {
            dense.put(j, x);
        }
    }
    dense.drain(MAX_SIDE, t);
}

/// For each entry of A's row those of B's, moved by B's columns.
fn kronecker_row(op: BinaryOp, a: Row, b: Row, width: usize, t: &mut RowBuffer) {
    for (j, x) in a.iter() {
        for (l, y) in b.iter() {
            t.push(j * width as u32 + l, op.apply(x, y));
        }
    }
}
