//! The operations, and index operators on a vector. The result is materialized when one returns.

use super::objects::{Descriptor, Matrix, Semiring, Vector};
use super::{c, call, Error};
use crate::operators::{Apply, Binary, Condition, IndexUnary, Monoid, Unary};
use std::ptr::null_mut;

/// How a result is written into C; `T` is the kind of the mask, a matrix or a vector.
pub struct WriteBack<'a, T> {
    pub mask: Option<&'a T>,
    pub accumulator: Option<Binary>,
    pub descriptor: &'a Descriptor,
}

impl<T> Clone for WriteBack<'_, T> {
    fn clone(&self) -> Self {
        *self
    }
}

impl<T> Copy for WriteBack<'_, T> {}

impl<T> WriteBack<'_, T> {
    fn accumulator(&self) -> c::BinaryOp {
        self.accumulator.map_or(null_mut(), binary_op)
    }
}

impl WriteBack<'_, Matrix> {
    fn mask(&self) -> c::Matrix {
        self.mask.map_or(null_mut(), Matrix::handle)
    }
}

impl WriteBack<'_, Vector> {
    fn mask(&self) -> c::Vector {
        self.mask.map_or(null_mut(), Vector::handle)
    }
}

// The library sets its operators before anything runs, and never again.

pub(super) fn binary_op(op: Binary) -> c::BinaryOp {
    unsafe {
        match op {
            Binary::First => c::GrB_FIRST_INT32,
            Binary::Second => c::GrB_SECOND_INT32,
            Binary::Oneb => c::GrB_ONEB_INT32,
            Binary::Plus => c::GrB_PLUS_INT32,
            Binary::Minus => c::GrB_MINUS_INT32,
            Binary::Times => c::GrB_TIMES_INT32,
            Binary::Min => c::GrB_MIN_INT32,
            Binary::Max => c::GrB_MAX_INT32,
        }
    }
}

pub(super) fn monoid_handle(monoid: Monoid) -> c::Monoid {
    unsafe {
        match monoid {
            Monoid::Plus => c::GrB_PLUS_MONOID_INT32,
            Monoid::Times => c::GrB_TIMES_MONOID_INT32,
            Monoid::Min => c::GrB_MIN_MONOID_INT32,
            Monoid::Max => c::GrB_MAX_MONOID_INT32,
        }
    }
}

fn unary_op(op: Unary) -> c::UnaryOp {
    unsafe {
        match op {
            Unary::Identity => c::GrB_IDENTITY_INT32,
            Unary::Ainv => c::GrB_AINV_INT32,
            Unary::Abs => c::GrB_ABS_INT32,
            Unary::Lnot => c::GxB_LNOT_INT32,
            Unary::One => c::GxB_ONE_INT32,
        }
    }
}

fn index_unary_op(op: IndexUnary) -> c::IndexUnaryOp {
    unsafe {
        match op {
            IndexUnary::RowIndex => c::GrB_ROWINDEX_INT32,
            IndexUnary::ColIndex => c::GrB_COLINDEX_INT32,
            IndexUnary::DiagIndex => c::GrB_DIAGINDEX_INT32,
        }
    }
}

fn condition_op(op: Condition) -> c::IndexUnaryOp {
    unsafe {
        match op {
            Condition::ValueEq => c::GrB_VALUEEQ_INT32,
            Condition::ValueNe => c::GrB_VALUENE_INT32,
            Condition::ValueLt => c::GrB_VALUELT_INT32,
            Condition::ValueLe => c::GrB_VALUELE_INT32,
            Condition::ValueGt => c::GrB_VALUEGT_INT32,
            Condition::ValueGe => c::GrB_VALUEGE_INT32,
            Condition::Tril => c::GrB_TRIL,
            Condition::Triu => c::GrB_TRIU,
        }
    }
}

/// C gets A times B.
pub fn mxm(c: &Matrix, write: WriteBack<Matrix>, semiring: &Semiring, a: &Matrix, b: &Matrix) -> Result<(), Error> {
    let (mask, accumulator, descriptor) = (write.mask(), write.accumulator(), write.descriptor.handle());
    let (to, semiring, a, b) = (c.handle(), semiring.handle(), a.handle(), b.handle());
    unsafe { call!(GrB_mxm(to, mask, accumulator, semiring, a, b, descriptor))? };
    c.wait()
}

/// w gets u times A. The flag that transposes the first input has nothing to act on.
pub fn vxm(w: &Vector, write: WriteBack<Vector>, semiring: &Semiring, u: &Vector, a: &Matrix) -> Result<(), Error> {
    let (mask, accumulator, descriptor) = (write.mask(), write.accumulator(), write.descriptor.handle());
    let (to, semiring, u, a) = (w.handle(), semiring.handle(), u.handle(), a.handle());
    unsafe { call!(GrB_vxm(to, mask, accumulator, semiring, u, a, descriptor))? };
    w.wait()
}

/// Where both A and B have an entry: op of the two.
pub fn ewise_mult(c: &Matrix, write: WriteBack<Matrix>, op: Binary, a: &Matrix, b: &Matrix) -> Result<(), Error> {
    let (mask, accumulator, descriptor) = (write.mask(), write.accumulator(), write.descriptor.handle());
    let (to, op, a, b) = (c.handle(), binary_op(op), a.handle(), b.handle());
    unsafe { call!(GrB_Matrix_eWiseMult_BinaryOp(to, mask, accumulator, op, a, b, descriptor))? };
    c.wait()
}

/// Where both A and B have an entry: op of the two; where one has: its value.
pub fn ewise_add(c: &Matrix, write: WriteBack<Matrix>, op: Binary, a: &Matrix, b: &Matrix) -> Result<(), Error> {
    let (mask, accumulator, descriptor) = (write.mask(), write.accumulator(), write.descriptor.handle());
    let (to, op, a, b) = (c.handle(), binary_op(op), a.handle(), b.handle());
    unsafe { call!(GrB_Matrix_eWiseAdd_BinaryOp(to, mask, accumulator, op, a, b, descriptor))? };
    c.wait()
}

/// An operator on every entry of A.
pub fn apply(c: &Matrix, write: WriteBack<Matrix>, apply: Apply, a: &Matrix) -> Result<(), Error> {
    let (mask, accumulator, descriptor) = (write.mask(), write.accumulator(), write.descriptor.handle());
    let (to, a) = (c.handle(), a.handle());
    unsafe {
        match apply {
            Apply::Unary(op) => call!(GrB_Matrix_apply(to, mask, accumulator, unary_op(op), a, descriptor))?,
            Apply::ScalarFirst(op, scalar) => {
                let op = binary_op(op);
                call!(GrB_Matrix_apply_BinaryOp1st_INT32(to, mask, accumulator, op, scalar, a, descriptor))?
            }
            Apply::ScalarSecond(op, scalar) => {
                let op = binary_op(op);
                call!(GrB_Matrix_apply_BinaryOp2nd_INT32(to, mask, accumulator, op, a, scalar, descriptor))?
            }
            Apply::IndexUnary(op, scalar) => {
                let op = index_unary_op(op);
                call!(GrB_Matrix_apply_IndexOp_INT32(to, mask, accumulator, op, a, scalar, descriptor))?
            }
        }
    }
    c.wait()
}

/// An index operator on every entry of u, by the entry's index.
pub fn apply_index(w: &Vector, write: WriteBack<Vector>, op: IndexUnary, scalar: i32, u: &Vector) -> Result<(), Error> {
    let (mask, accumulator, descriptor) = (write.mask(), write.accumulator(), write.descriptor.handle());
    let (to, op, u) = (w.handle(), index_unary_op(op), u.handle());
    unsafe { call!(GrB_Vector_apply_IndexOp_INT32(to, mask, accumulator, op, u, scalar, descriptor))? };
    w.wait()
}

/// At (i, j) the cell of A at row rows[i] and column cols[j].
pub fn extract(c: &Matrix, write: WriteBack<Matrix>, a: &Matrix, rows: &[u64], cols: &[u64]) -> Result<(), Error> {
    let (mask, accumulator, descriptor) = (write.mask(), write.accumulator(), write.descriptor.handle());
    let (to, a) = (c.handle(), a.handle());
    let (row_list, row_count) = (rows.as_ptr(), rows.len() as u64);
    let (col_list, col_count) = (cols.as_ptr(), cols.len() as u64);
    unsafe {
        call!(GrB_Matrix_extract(to, mask, accumulator, a, row_list, row_count, col_list, col_count, descriptor))?
    };
    c.wait()
}

/// At (rows[k], cols[l]) of C the cell of A at (k, l). The mask has C's shape.
pub fn assign(c: &Matrix, write: WriteBack<Matrix>, a: &Matrix, rows: &[u64], cols: &[u64]) -> Result<(), Error> {
    let (mask, accumulator, descriptor) = (write.mask(), write.accumulator(), write.descriptor.handle());
    let (to, a) = (c.handle(), a.handle());
    let (row_list, row_count) = (rows.as_ptr(), rows.len() as u64);
    let (col_list, col_count) = (cols.as_ptr(), cols.len() as u64);
    unsafe {
        call!(GrB_Matrix_assign(to, mask, accumulator, a, row_list, row_count, col_list, col_count, descriptor))?
    };
    c.wait()
}

/// The Kronecker product.
pub fn kronecker(c: &Matrix, write: WriteBack<Matrix>, op: Binary, a: &Matrix, b: &Matrix) -> Result<(), Error> {
    let (mask, accumulator, descriptor) = (write.mask(), write.accumulator(), write.descriptor.handle());
    let (to, op, a, b) = (c.handle(), binary_op(op), a.handle(), b.handle());
    unsafe { call!(GrB_Matrix_kronecker_BinaryOp(to, mask, accumulator, op, a, b, descriptor))? };
    c.wait()
}

/// The entries of A for which a condition holds.
pub fn select(c: &Matrix, write: WriteBack<Matrix>, op: Condition, scalar: i32, a: &Matrix) -> Result<(), Error> {
    let (mask, accumulator, descriptor) = (write.mask(), write.accumulator(), write.descriptor.handle());
    let (to, op, a) = (c.handle(), condition_op(op), a.handle());
    unsafe { call!(GrB_Matrix_select_INT32(to, mask, accumulator, op, a, scalar, descriptor))? };
    c.wait()
}

/// w gets the values of each row of A added up.
pub fn reduce_rows(w: &Vector, write: WriteBack<Vector>, monoid: Monoid, a: &Matrix) -> Result<(), Error> {
    let (mask, accumulator, descriptor) = (write.mask(), write.accumulator(), write.descriptor.handle());
    let (to, monoid, a) = (w.handle(), monoid_handle(monoid), a.handle());
    unsafe { call!(GrB_Matrix_reduce_Monoid(to, mask, accumulator, monoid, a, descriptor))? };
    w.wait()
}

/// All values of A added up.
pub fn reduce(monoid: Monoid, a: &Matrix) -> Result<i32, Error> {
    let mut number = 0;
    let (monoid, a) = (monoid_handle(monoid), a.handle());
    unsafe { call!(GrB_Matrix_reduce_INT32(&mut number, null_mut(), monoid, a, null_mut()))? };
    Ok(number)
}
