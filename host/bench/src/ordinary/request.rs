//! What a call asks for: its numbers decoded, and the refusals that need no result.

use super::answer::{ensure, Refusal, Result};
use super::matrix::{Matrix, MAX_SIDE, MAX_WORDS};
use super::operators::{ApplyOp, BinaryOp, SelectOp};
use ostrubel::calls::OptionNumbers;

const MAX_FLAGS: u32 = 31;
const REPLACE: u32 = 1;
const COMPLEMENT: u32 = 2;
const STRUCTURAL: u32 = 4;
const TRANSPOSE_FIRST: u32 = 8;
const TRANSPOSE_SECOND: u32 = 16;

/// Three of the largest matrices: the result and two transposed inputs.
pub const WORKSPACE_WORDS: usize = 3 * MAX_WORDS;

#[derive(Clone, Copy)]
pub enum Operation<'a> {
    Mxm { monoid: BinaryOp, op: BinaryOp },
    Vxm { monoid: BinaryOp, op: BinaryOp },
    EwiseMult(BinaryOp),
    EwiseAdd(BinaryOp),
    Apply(ApplyOp),
    Extract { rows: &'a [u32], cols: &'a [u32] },
    Select(SelectOp),
    ReduceRows(BinaryOp),
    Assign { rows: &'a [u32], cols: &'a [u32] },
    Kronecker(BinaryOp),
}

impl<'a> Operation<'a> {
    pub fn mxm(monoid: u32, op: u32) -> Option<Self> {
        Some(Operation::Mxm { monoid: BinaryOp::monoid(monoid)?, op: BinaryOp::numbered(op)? })
    }

    pub fn vxm(monoid: u32, op: u32) -> Option<Self> {
        Some(Operation::Vxm { monoid: BinaryOp::monoid(monoid)?, op: BinaryOp::numbered(op)? })
    }

    pub fn ewise_mult(op: u32) -> Option<Self> {
        BinaryOp::numbered(op).map(Operation::EwiseMult)
    }

    pub fn ewise_add(op: u32) -> Option<Self> {
        BinaryOp::numbered(op).map(Operation::EwiseAdd)
    }

    pub fn apply(kind: u32, op: u32, scalar: u32) -> Option<Self> {
        ApplyOp::numbered(kind, op, scalar).map(Operation::Apply)
    }

    pub fn select(op: u32, scalar: u32) -> Option<Self> {
        SelectOp::numbered(op, scalar).map(Operation::Select)
    }

    pub fn reduce_rows(monoid: u32) -> Option<Self> {
        BinaryOp::monoid(monoid).map(Operation::ReduceRows)
    }

    pub fn kronecker(op: u32) -> Option<Self> {
        BinaryOp::numbered(op).map(Operation::Kronecker)
    }

    fn has_second(&self) -> bool {
        use Operation::{EwiseAdd, EwiseMult, Kronecker, Mxm, Vxm};
        matches!(self, Mxm { .. } | Vxm { .. } | EwiseMult(_) | EwiseAdd(_) | Kronecker(_))
    }
}

/// The matrices of a call. Where it has no second input, `b` is any of them.
pub struct Inputs<'a> {
    pub a: Matrix<'a>,
    pub b: Matrix<'a>,
    pub mask: Option<Matrix<'a>>,
    pub c: Matrix<'a>,
}

pub struct Request<'a> {
    pub operation: Operation<'a>,
    pub replace: bool,
    pub complement: bool,
    pub structural: bool,
    pub transpose_first: bool,
    pub transpose_second: bool,
    pub has_mask: bool,
    pub accumulator: Option<BinaryOp>,
}

impl<'a> Request<'a> {
    /// Refused by 1 and 2; no operation stands for one with an unknown number.
    pub fn new(options: OptionNumbers, operation: Option<Operation<'a>>) -> Result<Self> {
        ensure(options.flags <= MAX_FLAGS, Refusal::FlagsOutOfRange)?;
        let operation = operation.ok_or(Refusal::UnknownOperator)?;
        let accumulator = match options.has_accumulator {
            0 => None,
            _ => Some(BinaryOp::numbered(options.accumulator).ok_or(Refusal::UnknownOperator)?),
        };
        let has = |flag| options.flags & flag != 0;
        Ok(Request {
            operation,
            replace: has(REPLACE),
            complement: has(COMPLEMENT),
            structural: has(STRUCTURAL),
            transpose_first: has(TRANSPOSE_FIRST) && !matches!(operation, Operation::Vxm { .. }),
            transpose_second: has(TRANSPOSE_SECOND) && operation.has_second(),
            has_mask: options.has_mask != 0,
            accumulator,
        })
    }

    /// Refused by 7, 8 and 9: the index lists, the shapes and the workspace.
    pub fn check(&self, inputs: &Inputs, work: usize) -> Result<()> {
        let first = oriented(inputs.a.shape(), self.transpose_first);
        let second = oriented(inputs.b.shape(), self.transpose_second);
        if let Operation::Extract { rows, cols } = self.operation {
            ensure(list_valid(rows, first.0) && list_valid(cols, first.1), Refusal::IndexOutOfBounds)?;
        }
        let output = inputs.c.shape();
        if let Operation::Assign { rows, cols } = self.operation {
            ensure(list_valid(rows, output.0) && list_valid(cols, output.1), Refusal::IndexOutOfBounds)?;
        }
        let agree = match self.operation {
            Operation::Mxm { .. } => first.1 == second.0 && (first.0, second.1) == output,
            Operation::Vxm { .. } => first.0 == 1 && first.1 == second.0 && (1, second.1) == output,
            Operation::EwiseMult(_) | Operation::EwiseAdd(_) => first == second && first == output,
            Operation::Apply(_) | Operation::Select(_) => first == output,
            Operation::ReduceRows(_) => (1, first.0) == output,
            Operation::Extract { rows, cols } => (rows.len(), cols.len()) == output,
            Operation::Assign { rows, cols } => (rows.len(), cols.len()) == first,
            Operation::Kronecker(_) => (first.0 * second.0, first.1 * second.1) == output,
        };
        let mask_agrees = inputs.mask.is_none_or(|mask| mask.shape() == output);
        ensure(agree && mask_agrees, Refusal::InvalidShape)?;
        ensure(work >= WORKSPACE_WORDS, Refusal::WorkspaceTooShort)
    }

    /// Whether C simply becomes T.
    pub fn is_plain(&self) -> bool {
        !self.has_mask && !self.complement && self.accumulator.is_none()
    }
}

fn oriented(shape: (usize, usize), transposed: bool) -> (usize, usize) {
    if transposed {
        (shape.1, shape.0)
    } else {
        shape
    }
}

/// Whether a list has a right length and each of its indexes is below `side` and occurs once.
fn list_valid(list: &[u32], side: usize) -> bool {
    let mut marks = [false; MAX_SIDE];
    let mut is_new = |index: u32| match marks[..side].get_mut(index as usize) {
        None => false,
        Some(mark) => !std::mem::replace(mark, true),
    };
    (1..=MAX_SIDE).contains(&list.len()) && list.iter().all(|&index| is_new(index))
}
