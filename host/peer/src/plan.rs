//! What SuiteSparse is asked to do for a case: the call as it stands, then adjusted where its rules differ from
//! document 01's.
//!
//! The differences, found by running (the tests of the crate `suitesparse` show each):
//!
//! - DIAGINDEX is j - (i + s) and not j - i + s. The adjusted call has the scalar -s, which wraps.
//! - Of an apply with the scalar first, the matrix is the second input: flag 16 transposes it, and flag 8 is ignored.
//!   Document 01's apply has one input, the first. The adjusted call has flag 16 where the call has flag 8.
//! - The index of a vector is its row, so that ROWINDEX gives it and COLINDEX gives 0. Document 01's vector is a matrix
//!   of one row, and here it is one for SuiteSparse too, but in vxm, which has no index operator. Nothing is adjusted.

use crate::case::Case;
use second::calls::Operation;
use suitesparse::{Apply, Binary, Condition, IndexUnary, Monoid, Unary, TRANSPOSE_FIRST, TRANSPOSE_SECOND};

#[derive(Clone, Debug, PartialEq, Eq)]
pub enum Step {
    Mxm(Monoid, Binary),
    Vxm(Monoid, Binary),
    EwiseMult(Binary),
    EwiseAdd(Binary),
    Apply(Apply),
    Extract(Vec<u64>, Vec<u64>),
    Select(Condition, i32),
    ReduceRows(Monoid),
    Assign(Vec<u64>, Vec<u64>),
    Kronecker(Binary),
}

/// A call of SuiteSparse; the roles are positions among the case's matrices.
#[derive(Clone, Debug, PartialEq, Eq)]
pub struct Plan {
    pub step: Step,
    pub flags: u32,
    pub accumulator: Option<Binary>,
    pub a: usize,
    pub b: usize,
    pub mask: Option<usize>,
    pub c: usize,
}

/// A difference in rule for which there is an adjusted call.
#[derive(Clone, Copy, Debug, PartialEq, Eq, PartialOrd, Ord)]
pub enum Adjustment {
    DiagonalSign,
    ScalarFirstFlag,
}

impl Adjustment {
    pub const ALL: [Adjustment; 2] = [Adjustment::DiagonalSign, Adjustment::ScalarFirstFlag];

    pub fn text(self) -> &'static str {
        match self {
            Adjustment::DiagonalSign => "DIAGINDEX by the scalar's negative",
            Adjustment::ScalarFirstFlag => "flag 16 for flag 8 with the scalar first",
        }
    }

    /// Changes a plan where its outcome would differ, and tells whether it did.
    fn make(self, plan: &mut Plan) -> bool {
        let before = plan.clone();
        match (self, &mut plan.step) {
            (Adjustment::DiagonalSign, Step::Apply(Apply::IndexUnary(IndexUnary::DiagIndex, scalar))) => {
                *scalar = scalar.wrapping_neg();
            }
            (Adjustment::ScalarFirstFlag, Step::Apply(Apply::ScalarFirst(..))) => {
                let is_transposed = plan.flags & TRANSPOSE_FIRST != 0;
                let transposing = TRANSPOSE_FIRST | TRANSPOSE_SECOND;
                plan.flags = plan.flags & !transposing | if is_transposed { transposing } else { 0 };
            }
            _ => {}
        }
        *plan != before
    }
}

impl Plan {
    /// The call as it stands; none if it has a number that is no operator.
    pub fn of(case: &Case) -> Option<Self> {
        let accumulator = match case.options.has_accumulator {
            true => Some(Binary::numbered(case.options.accumulator)?),
            false => None,
        };
        Some(Plan {
            step: step_of(&case.operation)?,
            flags: case.options.flags,
            accumulator,
            a: case.a,
            b: if case.operation.has_second() { case.b } else { case.a },
            mask: case.options.has_mask.then_some(case.mask),
            c: case.c,
        })
    }

    /// Makes the adjustments that apply, but for one that is left out; tells which were made.
    pub fn adjust(&mut self, left_out: Option<Adjustment>) -> Vec<Adjustment> {
        Adjustment::ALL.into_iter().filter(|&kind| Some(kind) != left_out && kind.make(self)).collect()
    }
}

fn step_of(operation: &Operation) -> Option<Step> {
    let wide = |list: &[u32]| list.iter().copied().map(u64::from).collect();
    Some(match operation {
        Operation::Mxm { monoid, op } => Step::Mxm(Monoid::numbered(*monoid)?, Binary::numbered(*op)?),
        Operation::Vxm { monoid, op } => Step::Vxm(Monoid::numbered(*monoid)?, Binary::numbered(*op)?),
        Operation::EwiseMult { op } => Step::EwiseMult(Binary::numbered(*op)?),
        Operation::EwiseAdd { op } => Step::EwiseAdd(Binary::numbered(*op)?),
        Operation::Apply { kind, op, scalar } => Step::Apply(apply_of(*kind, *op, *scalar as i32)?),
        Operation::Extract { rows, cols } => Step::Extract(wide(rows), wide(cols)),
        Operation::Select { op, scalar } => Step::Select(Condition::numbered(*op)?, *scalar as i32),
        Operation::ReduceRows { monoid } => Step::ReduceRows(Monoid::numbered(*monoid)?),
        Operation::Assign { rows, cols } => Step::Assign(wide(rows), wide(cols)),
        Operation::Kronecker { op } => Step::Kronecker(Binary::numbered(*op)?),
    })
}

fn apply_of(kind: u32, op: u32, scalar: i32) -> Option<Apply> {
    match kind {
        0 => Unary::numbered(op).map(Apply::Unary),
        1 => Binary::numbered(op).map(|op| Apply::ScalarFirst(op, scalar)),
        2 => Binary::numbered(op).map(|op| Apply::ScalarSecond(op, scalar)),
        3 => IndexUnary::numbered(op).map(|op| Apply::IndexUnary(op, scalar)),
        _ => None,
    }
}
