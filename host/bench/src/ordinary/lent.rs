//! The calls on matrices in buffers of their own.

use super::answer::{ensure, pack, pack_cell, pack_number, pack_part, Refusal, Result};
use super::compute::{add_up, compute};
use super::matrix::{side_valid, size, write_empty, Cell, Matrix};
use super::operators::BinaryOp;
use super::request::{Inputs, Operation, Request};
use ostrubel::calls::OptionNumbers;

/// Whether the words begin with a valid matrix.
pub fn check(words: &[u32]) -> u64 {
    pack(Matrix::parse(words).map(|matrix| matrix.entries()).ok_or(Refusal::InvalidFirst))
}

/// An empty matrix at the front of the buffer.
pub fn new_empty(rows: u32, cols: u32, buffer: &mut [u32]) -> u64 {
    if !side_valid(rows) || !side_valid(cols) {
        return pack(Err(Refusal::InvalidShape));
    }
    match buffer.get_mut(..size(rows as usize, 0)) {
        None => pack(Err(Refusal::InsufficientSpace)),
        Some(words) => {
            write_empty(words, rows, cols);
            pack(Ok(0))
        }
    }
}

/// The cell at row i and column j.
pub fn read_cell(i: u32, j: u32, words: &[u32]) -> u64 {
    pack_cell(find_cell(i, j, words))
}

fn find_cell(i: u32, j: u32, words: &[u32]) -> Result<Cell> {
    let matrix = Matrix::parse(words).ok_or(Refusal::InvalidFirst)?;
    let inside = (i as usize) < matrix.rows() && (j as usize) < matrix.cols;
    ensure(inside, Refusal::IndexOutOfBounds)?;
    Ok(matrix.cell(i as usize, j))
}

/// All values of the matrix added up with a monoid.
pub fn reduce(monoid: u32, words: &[u32]) -> u64 {
    pack_number(total(monoid, words))
}

fn total(monoid: u32, words: &[u32]) -> Result<u32> {
    let op = BinaryOp::monoid(monoid).ok_or(Refusal::UnknownOperator)?;
    let matrix = Matrix::parse(words).ok_or(Refusal::InvalidFirst)?;
    Ok(add_up(op, op.identity(), matrix.values))
}

/// Where row i over two matrices lies: its column numbers where `values` is 0, else its values.
pub fn row_view(i: u32, values: u32, first: &[u32], second: &[u32]) -> u64 {
    let i = i as usize;
    match (Matrix::parse(first), Matrix::parse(second)) {
        (Some(a), Some(b)) if a.shape() == b.shape() && i < a.rows() => {
            let in_second = a.row(i).columns.is_empty();
            let shown = if in_second { b } else { a };
            let section = if values == 0 { shown.columns_at() } else { shown.values_at() };
            pack_part(in_second, section + shown.starts[i] as usize, shown.row(i).columns.len())
        }
        _ => pack_part(false, 0, 0),
    }
}

/// C gets A times B: op multiplies, the monoid adds up.
#[allow(clippy::too_many_arguments)]
pub fn mxm(
    options: OptionNumbers,
    monoid: u32,
    op: u32,
    a: &[u32],
    b: &[u32],
    mask: &[u32],
    c: &mut [u32],
    work: &mut [u32],
) -> u64 {
    run(options, Operation::mxm(monoid, op), a, Some(b), mask, c, work)
}

/// C gets u times A, where u has one row.
#[allow(clippy::too_many_arguments)]
pub fn vxm(
    options: OptionNumbers,
    monoid: u32,
    op: u32,
    u: &[u32],
    a: &[u32],
    mask: &[u32],
    c: &mut [u32],
    work: &mut [u32],
) -> u64 {
    run(options, Operation::vxm(monoid, op), u, Some(a), mask, c, work)
}

/// Where both A and B have an entry: op of the two.
pub fn ewise_mult(
    options: OptionNumbers,
    op: u32,
    a: &[u32],
    b: &[u32],
    mask: &[u32],
    c: &mut [u32],
    work: &mut [u32],
) -> u64 {
    run(options, Operation::ewise_mult(op), a, Some(b), mask, c, work)
}

/// Where both A and B have an entry: op of the two; where one has: its value.
pub fn ewise_add(
    options: OptionNumbers,
    op: u32,
    a: &[u32],
    b: &[u32],
    mask: &[u32],
    c: &mut [u32],
    work: &mut [u32],
) -> u64 {
    run(options, Operation::ewise_add(op), a, Some(b), mask, c, work)
}

/// An operator of a kind, with a scalar, on every entry of A.
#[allow(clippy::too_many_arguments)]
pub fn apply(
    options: OptionNumbers,
    kind: u32,
    op: u32,
    scalar: u32,
    a: &[u32],
    mask: &[u32],
    c: &mut [u32],
    work: &mut [u32],
) -> u64 {
    run(options, Operation::apply(kind, op, scalar), a, None, mask, c, work)
}

/// At (i, j) the cell of A at row is[i] and column js[j].
pub fn extract(
    options: OptionNumbers,
    a: &[u32],
    is: &[u32],
    js: &[u32],
    mask: &[u32],
    c: &mut [u32],
    work: &mut [u32],
) -> u64 {
    run(options, Some(Operation::Extract { rows: is, cols: js }), a, None, mask, c, work)
}

/// The entries of A for which a condition with a scalar holds.
pub fn select(
    options: OptionNumbers,
    op: u32,
    scalar: u32,
    a: &[u32],
    mask: &[u32],
    c: &mut [u32],
    work: &mut [u32],
) -> u64 {
    run(options, Operation::select(op, scalar), a, None, mask, c, work)
}

/// In one row, at column j, the values of A's row j added up with the monoid.
pub fn reduce_rows(
    options: OptionNumbers,
    monoid: u32,
    a: &[u32],
    mask: &[u32],
    c: &mut [u32],
    work: &mut [u32],
) -> u64 {
    run(options, Operation::reduce_rows(monoid), a, None, mask, c, work)
}

/// At (is[k], js[l]) of C the cell of A at (k, l).
pub fn assign(
    options: OptionNumbers,
    a: &[u32],
    is: &[u32],
    js: &[u32],
    mask: &[u32],
    c: &mut [u32],
    work: &mut [u32],
) -> u64 {
    run(options, Some(Operation::Assign { rows: is, cols: js }), a, None, mask, c, work)
}

/// The Kronecker product.
pub fn kronecker(
    options: OptionNumbers,
    op: u32,
    a: &[u32],
    b: &[u32],
    mask: &[u32],
    c: &mut [u32],
    work: &mut [u32],
) -> u64 {
    run(options, Operation::kronecker(op), a, Some(b), mask, c, work)
}

/// The attempt, and then the workspace is cleared.
fn run(
    options: OptionNumbers,
    operation: Option<Operation>,
    a: &[u32],
    b: Option<&[u32]>,
    mask: &[u32],
    c: &mut [u32],
    work: &mut [u32],
) -> u64 {
    let answer = attempt(options, operation, a, b, mask, c, work);
    work.fill(0);
    pack(answer)
}

fn attempt(
    options: OptionNumbers,
    operation: Option<Operation>,
    a: &[u32],
    b: Option<&[u32]>,
    mask: &[u32],
    c: &mut [u32],
    work: &mut [u32],
) -> Result<usize> {
    let request = Request::new(options, operation)?;
    let inputs = parse(&request, a, b, mask, c)?;
    request.check(&inputs, work.len())?;
    let result = compute(&request, &inputs, work)?;
    ensure(result.size() <= c.len(), Refusal::InsufficientSpace)?;
    result.write(c);
    Ok(result.entries())
}

/// The matrices that the call has. Refused by 3 to 6.
fn parse<'a>(
    request: &Request,
    a: &'a [u32],
    b: Option<&'a [u32]>,
    mask: &'a [u32],
    c: &'a [u32],
) -> Result<Inputs<'a>> {
    let a = Matrix::parse(a).ok_or(Refusal::InvalidFirst)?;
    let b = match b {
        Some(b) => Matrix::parse(b).ok_or(Refusal::InvalidSecond)?,
        None => a,
    };
    let mask = match request.has_mask {
        true => Some(Matrix::parse(mask).ok_or(Refusal::InvalidMask)?),
        false => None,
    };
    let c = Matrix::parse(c).ok_or(Refusal::InvalidOutput)?;
    Ok(Inputs { a, b, mask, c })
}
