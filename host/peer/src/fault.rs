//! Wrong rules that can be planted in SuiteSparse's calls, to see that the comparison notices them.

use crate::plan::{Adjustment, Plan, Step};
use crate::suite::Triple;
use second::grid::Grid;
use suitesparse::{
    Apply, Binary, Condition, IndexUnary, Monoid, Unary, COMPLEMENT, REPLACE, STRUCTURAL, TRANSPOSE_FIRST,
    TRANSPOSE_SECOND,
};

macro_rules! faults {
    ($($name:ident: $text:literal,)*) => {
        #[derive(Clone, Copy, PartialEq, Eq, Debug)]
        pub enum Fault {
            $($name,)*
        }

        /// Every fault with a sentence about it.
        pub const ALL: &[(Fault, &str)] = &[$((Fault::$name, $text),)*];
    };
}

faults! {
    // Flags.
    ReplaceIgnored: "replace is ignored",
    ReplaceAlways: "outside the mask C always loses its entries",
    ComplementIgnored: "complement is ignored",
    ComplementNeedsMask: "complement without a mask is ignored",
    MaskComplemented: "the mask is complemented where it should not be",
    StructuralIgnored: "the structural flag is ignored",
    StructuralAlways: "a stored 0 of the mask counts",
    FirstNotTransposed: "the first input is not transposed",
    FirstTransposed: "the first input is transposed where it should not be",
    SecondNotTransposed: "the second input is not transposed",
    // The other parts of the write-back.
    MaskIgnored: "the mask is ignored",
    OldIsMask: "old C is taken for the mask",
    AccumulatorIgnored: "the accumulator is ignored",
    AccumulatorChanged: "the accumulator is the operator with the next number",
    AccumulatorSecond: "every accumulator is SECOND",
    OldForgotten: "C has no entries before the call",
    // Operators and inputs.
    MonoidChanged: "the next monoid adds up",
    MultiplierChanged: "the operator with the next number multiplies",
    PairOperatorChanged: "intersection and union take the operator with the next number",
    InputsSwapped: "the inputs are exchanged",
    UnionIsIntersection: "a union leaves lone values out",
    IntersectionIsUnion: "an intersection passes lone values",
    LoneRightNegated: "a lone right-hand value of a MINUS union is negated",
    UnaryChanged: "apply takes the unary operator with the next number",
    ScalarSideChanged: "the scalar is on the other side",
    ScalarOneMore: "the scalar is one more",
    PositionsAsStored: "ROWINDEX and COLINDEX see the row and column before transposing",
    ConditionChanged: "select takes the condition with the next number",
    ConditionScalarOneMore: "the scalar of a condition is one more",
    RowMonoidChanged: "the next monoid adds up the rows",
    RowsReversed: "extract takes the list of rows from its end",
    ColsReversed: "extract takes the list of columns from its end",
    AssignedRowsReversed: "assign takes the list of rows from its end",
    AssignedColsReversed: "assign takes the list of columns from its end",
    BlockOperatorChanged: "the Kronecker product takes the operator with the next number",
    // Adjustments that are left out.
    DiagonalAsTheirs: "DIAGINDEX is j - (i + s)",
    ScalarFirstByFlag16: "with the scalar first, flag 16 transposes and flag 8 does not",
    // Stored zeros, and one matrix in several roles.
    InputZeroDropped: "a stored 0 of the first input is no entry",
    MaskZeroDropped: "a stored 0 of the mask is no entry",
    ResultZeroDropped: "a 0 in the final C is no entry",
    AliasedReadLate: "a first input that is also C is read after C was emptied",
    AliasedMaskReadLate: "a mask that is also C is read after C was emptied",
}

/// The case after this one, in a circle.
fn next<T: Copy + PartialEq>(all: &[T], case: T) -> T {
    let at = all.iter().position(|&other| other == case).map_or(0, |at| at + 1);
    all[at % all.len()]
}

/// Puts a matrix behind the others and tells its position.
fn add(grids: &mut Vec<Option<Grid>>, grid: Grid) -> usize {
    grids.push(Some(grid));
    grids.len() - 1
}

/// A changed copy of the matrix at a position.
fn copy_of(grids: &mut Vec<Option<Grid>>, at: usize, change: impl Fn(&mut Grid)) -> usize {
    let mut grid = grids.get(at).cloned().flatten().unwrap_or(Grid::empty(1, 1));
    change(&mut grid);
    add(grids, grid)
}

/// The operator that takes the row for the column.
fn exchanged(op: IndexUnary) -> IndexUnary {
    match op {
        IndexUnary::RowIndex => IndexUnary::ColIndex,
        IndexUnary::ColIndex => IndexUnary::RowIndex,
        IndexUnary::DiagIndex => IndexUnary::DiagIndex,
    }
}

fn drop_zeros(grid: &mut Grid) {
    grid.cells.retain(|_, value| *value != 0);
}

impl Fault {
    /// The adjustment that is not made.
    pub fn left_out(self) -> Option<Adjustment> {
        match self {
            Fault::DiagonalAsTheirs => Some(Adjustment::DiagonalSign),
            Fault::ScalarFirstByFlag16 => Some(Adjustment::ScalarFirstFlag),
            _ => None,
        }
    }

    /// Plants the fault in a call, and in its matrices where the fault is about them.
    pub fn change_call(self, plan: &mut Plan, grids: &mut Vec<Option<Grid>>) {
        self.change_flags(plan);
        self.change_step(&mut plan.step);
        self.change_roles(plan, grids);
    }

    fn change_flags(self, plan: &mut Plan) {
        if self == Fault::PositionsAsStored && plan.flags & TRANSPOSE_FIRST != 0 {
            if let Step::Apply(Apply::IndexUnary(op, _)) = &mut plan.step {
                *op = exchanged(*op);
            }
        }
        match self {
            Fault::ReplaceIgnored => plan.flags &= !REPLACE,
            Fault::ReplaceAlways => plan.flags |= REPLACE,
            Fault::ComplementIgnored => plan.flags &= !COMPLEMENT,
            Fault::ComplementNeedsMask if plan.mask.is_none() => plan.flags &= !COMPLEMENT,
            Fault::MaskComplemented => plan.flags |= COMPLEMENT,
            Fault::StructuralIgnored => plan.flags &= !STRUCTURAL,
            Fault::StructuralAlways => plan.flags |= STRUCTURAL,
            Fault::FirstNotTransposed => plan.flags &= !TRANSPOSE_FIRST,
            Fault::FirstTransposed => plan.flags |= TRANSPOSE_FIRST,
            Fault::SecondNotTransposed => plan.flags &= !TRANSPOSE_SECOND,
            _ => {}
        }
    }

    fn change_step(self, step: &mut Step) {
        match (self, step) {
            (Fault::MonoidChanged, Step::Mxm(monoid, _) | Step::Vxm(monoid, _)) => {
                *monoid = next(Monoid::ALL, *monoid);
            }
            (Fault::MultiplierChanged, Step::Mxm(_, op) | Step::Vxm(_, op))
            | (Fault::PairOperatorChanged, Step::EwiseMult(op) | Step::EwiseAdd(op))
            | (Fault::BlockOperatorChanged, Step::Kronecker(op)) => {
                *op = next(Binary::ALL, *op);
            }
            (Fault::UnionIsIntersection, step @ &mut Step::EwiseAdd(op)) => *step = Step::EwiseMult(op),
            (Fault::IntersectionIsUnion, step @ &mut Step::EwiseMult(op)) => *step = Step::EwiseAdd(op),
            (Fault::ConditionChanged, Step::Select(op, _)) => *op = next(Condition::ALL, *op),
            (Fault::ConditionScalarOneMore, Step::Select(_, scalar)) => *scalar = scalar.wrapping_add(1),
            (Fault::RowMonoidChanged, Step::ReduceRows(monoid)) => *monoid = next(Monoid::ALL, *monoid),
            (Fault::RowsReversed, Step::Extract(rows, _)) => rows.reverse(),
            (Fault::ColsReversed, Step::Extract(_, cols)) => cols.reverse(),
            (Fault::AssignedRowsReversed, Step::Assign(rows, _)) => rows.reverse(),
            (Fault::AssignedColsReversed, Step::Assign(_, cols)) => cols.reverse(),
            (_, Step::Apply(apply)) => *apply = self.changed_apply(*apply),
            _ => {}
        }
    }

    fn changed_apply(self, apply: Apply) -> Apply {
        match (self, apply) {
            (Fault::UnaryChanged, Apply::Unary(op)) => Apply::Unary(next(Unary::ALL, op)),
            (Fault::ScalarSideChanged, Apply::ScalarFirst(op, scalar)) => Apply::ScalarSecond(op, scalar),
            (Fault::ScalarSideChanged, Apply::ScalarSecond(op, scalar)) => Apply::ScalarFirst(op, scalar),
            (Fault::ScalarOneMore, Apply::ScalarFirst(op, scalar)) => Apply::ScalarFirst(op, scalar.wrapping_add(1)),
            (Fault::ScalarOneMore, Apply::ScalarSecond(op, scalar)) => Apply::ScalarSecond(op, scalar.wrapping_add(1)),
            (Fault::ScalarOneMore, Apply::IndexUnary(op, scalar)) => Apply::IndexUnary(op, scalar.wrapping_add(1)),
            _ => apply,
        }
    }

    fn change_roles(self, plan: &mut Plan, grids: &mut Vec<Option<Grid>>) {
        match (self, plan.mask) {
            (Fault::MaskIgnored, _) => plan.mask = None,
            (Fault::OldIsMask, Some(_)) => plan.mask = Some(plan.c),
            (Fault::AccumulatorIgnored, _) => plan.accumulator = None,
            (Fault::AccumulatorChanged, _) => plan.accumulator = plan.accumulator.map(|op| next(Binary::ALL, op)),
            (Fault::AccumulatorSecond, _) => plan.accumulator = plan.accumulator.map(|_| Binary::Second),
            (Fault::OldForgotten, _) => plan.c = copy_of(grids, plan.c, |grid| grid.cells.clear()),
            (Fault::InputsSwapped, _) if !matches!(plan.step, Step::Vxm(..)) => {
                (plan.a, plan.b) = (plan.b, plan.a);
            }
            (Fault::LoneRightNegated, _) if plan.step == Step::EwiseAdd(Binary::Minus) => {
                plan.step = Step::EwiseAdd(Binary::Plus);
                let negate = |grid: &mut Grid| grid.cells.values_mut().for_each(|value| *value = value.wrapping_neg());
                plan.b = copy_of(grids, plan.b, negate);
            }
            (Fault::InputZeroDropped, _) => plan.a = copy_of(grids, plan.a, drop_zeros),
            (Fault::MaskZeroDropped, Some(mask)) => plan.mask = Some(copy_of(grids, mask, drop_zeros)),
            (Fault::AliasedReadLate, _) if plan.a == plan.c => {
                plan.a = copy_of(grids, plan.a, |grid| grid.cells.clear());
            }
            (Fault::AliasedMaskReadLate, Some(mask)) if mask == plan.c => {
                plan.mask = Some(copy_of(grids, mask, |grid| grid.cells.clear()));
            }
            _ => {}
        }
    }

    /// Plants the fault in what SuiteSparse computed.
    pub fn change_result(self, result: &mut Vec<Triple>) {
        if self == Fault::ResultZeroDropped {
            result.retain(|&(_, _, value)| value != 0);
        }
    }
}
