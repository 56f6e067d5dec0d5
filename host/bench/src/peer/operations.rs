//! The operations.

use super::Peer;
use crate::entries::Entries;
use crate::jobs::{Buffers, LentJob, Operation, SCALAR, THRESHOLD};
use crate::timing::Subject;
use std::hint::black_box;
use suitesparse::{Apply, Binary, Condition, Descriptor, Matrix, Monoid, Semiring, Vector, WriteBack};

const FAILED: &str = "SuiteSparse carries out the call";

/// An operation on lent matrices.
pub fn operation(job: &LentJob) -> Option<Box<dyn Peer>> {
    match job.operation {
        Operation::Vxm => Some(Box::new(VectorCall::new(job, Some((semiring(), vector(&job.a))), matrix(&job.b)))),
        Operation::ReduceRows => Some(Box::new(VectorCall::new(job, None, matrix(&job.a)))),
        _ => Some(Box::new(MatrixCall::new(job))),
    }
}

fn matrix(words: &[u32]) -> Matrix {
    matrix_of(&Entries::read(words))
}

fn matrix_of(Entries { rows, cols, cells }: &Entries) -> Matrix {
    let triples: Vec<(u32, u32, i32)> = cells.iter().map(|(&(i, j), &value)| (i, j, value)).collect();
    Matrix::from_triples(*rows as u32, *cols as u32, &triples).expect(FAILED)
}

fn entries_of(matrix: &Matrix) -> Entries {
    let (rows, cols) = matrix.shape().expect(FAILED);
    let triples = matrix.triples().expect(FAILED);
    let cells = triples.into_iter().map(|(i, j, value)| ((i, j), value)).collect();
    Entries { rows: rows as usize, cols: cols as usize, cells }
}

/// A formula without brackets over matrices in the slots from 0 on: each step by its call, into a new matrix.
pub fn formula(text: &str, matrices: &[&Entries]) -> Option<Box<dyn Peer>> {
    let slot = |factor: &str| factor.parse().expect("a digit");
    let terms = text.split('+').map(|term| term.split('*').map(slot).collect()).collect();
    let matrices: Vec<Matrix> = matrices.iter().map(|entries| matrix_of(entries)).collect();
    let plain = Descriptor::new(0).expect(FAILED);
    Some(Box::new(FormulaCall { terms, matrices, semiring: semiring(), plain, value: None }))
}

struct FormulaCall {
    /// The slots of each term's factors.
    terms: Vec<Vec<usize>>,
    matrices: Vec<Matrix>,
    semiring: Semiring,
    plain: Descriptor,
    value: Option<Matrix>,
}

impl FormulaCall {
    /// A step into a new matrix, by the shapes of its operands.
    fn step(&self, is_product: bool, a: &Matrix, b: &Matrix) -> Matrix {
        let c = Matrix::new(a.shape().expect(FAILED).0, b.shape().expect(FAILED).1).expect(FAILED);
        let write = WriteBack { mask: None, accumulator: None, descriptor: &self.plain };
        let done = match is_product {
            true => suitesparse::mxm(&c, write, &self.semiring, a, b),
            false => suitesparse::ewise_add(&c, write, Binary::Plus, a, b),
        };
        done.expect(FAILED);
        c
    }

    fn term(&self, slots: &[usize]) -> Matrix {
        let [first, second, rest @ ..] = slots else { panic!("a product has two factors at least") };
        let product = self.step(true, &self.matrices[*first], &self.matrices[*second]);
        rest.iter().fold(product, |product, slot| self.step(true, &product, &self.matrices[*slot]))
    }
}

impl Subject for FormulaCall {
    fn restore(&mut self, _: &mut Buffers) {
        self.value = None;
    }

    fn call(&mut self, _: &mut Buffers) {
        let terms = self.terms.iter().map(|slots| self.term(slots));
        self.value = terms.reduce(|sum, term| self.step(false, &sum, &term));
    }

    fn repeats(&self) -> bool {
        false
    }
}

impl Peer for FormulaCall {
    fn result(&self) -> Entries {
        entries_of(self.value.as_ref().expect("after a call"))
    }
}

fn vector(words: &[u32]) -> Vector {
    let Entries { cols, cells, .. } = Entries::read(words);
    let pairs: Vec<(u32, i32)> = cells.into_iter().map(|((_, j), value)| (j, value)).collect();
    Vector::from_pairs(cols as u32, &pairs).expect(FAILED)
}

/// A matrix reduced to a number, and the number.
pub fn total(words: &[u32]) -> Option<(Box<dyn Subject>, i32)> {
    let a = matrix(words);
    let total = suitesparse::reduce(Monoid::Plus, &a).expect(FAILED);
    Some((Box::new(TotalCall { a }), total))
}

struct TotalCall {
    a: Matrix,
}

impl Subject for TotalCall {
    fn restore(&mut self, _: &mut Buffers) {}

    fn call(&mut self, _: &mut Buffers) {
        black_box(suitesparse::reduce(Monoid::Plus, &self.a).expect(FAILED));
    }

    fn repeats(&self) -> bool {
        true
    }
}

fn accumulator(job: &LentJob) -> Option<Binary> {
    (job.options.has_accumulator != 0).then_some(job.options.accumulator).and_then(Binary::numbered)
}

fn semiring() -> Semiring {
    Semiring::new(Monoid::Plus, Binary::Times).expect(FAILED)
}

fn wide(list: &[u32]) -> Vec<u64> {
    list.iter().map(|&index| u64::from(index)).collect()
}

enum MatrixOperation {
    Mxm(Semiring),
    EwiseMult,
    EwiseAdd,
    Apply,
    Extract { rows: Vec<u64>, cols: Vec<u64> },
    Select,
    Assign { rows: Vec<u64>, cols: Vec<u64> },
    Kronecker,
}

struct MatrixCall {
    operation: MatrixOperation,
    a: Matrix,
    b: Matrix,
    mask: Option<Matrix>,
    accumulator: Option<Binary>,
    descriptor: Descriptor,
    old: Matrix,
    c: Matrix,
}

impl MatrixCall {
    fn new(job: &LentJob) -> Self {
        let operation = match &job.operation {
            Operation::Mxm | Operation::Vxm => MatrixOperation::Mxm(semiring()),
            Operation::EwiseMult => MatrixOperation::EwiseMult,
            Operation::EwiseAdd => MatrixOperation::EwiseAdd,
            Operation::Apply => MatrixOperation::Apply,
            Operation::Extract { rows, cols } => MatrixOperation::Extract { rows: wide(rows), cols: wide(cols) },
            Operation::Select => MatrixOperation::Select,
            Operation::ReduceRows => unreachable!("it has a vector for C"),
            Operation::Assign { rows, cols } => MatrixOperation::Assign { rows: wide(rows), cols: wide(cols) },
            Operation::Kronecker => MatrixOperation::Kronecker,
        };
        MatrixCall {
            operation,
            a: matrix(&job.a),
            b: matrix(&job.b),
            mask: (job.options.has_mask != 0).then(|| matrix(&job.mask)),
            accumulator: accumulator(job),
            descriptor: Descriptor::new(job.options.flags).expect(FAILED),
            old: matrix(&job.c),
            c: matrix(&job.c),
        }
    }
}

impl Subject for MatrixCall {
    fn restore(&mut self, _: &mut Buffers) {
        self.c = self.old.duplicate().expect(FAILED);
    }

    fn call(&mut self, _: &mut Buffers) {
        let MatrixCall { operation, a, b, mask, accumulator, descriptor, c, .. } = self;
        let write = WriteBack { mask: mask.as_ref(), accumulator: *accumulator, descriptor };
        let done = match operation {
            MatrixOperation::Mxm(semiring) => suitesparse::mxm(c, write, semiring, a, b),
            MatrixOperation::EwiseMult => suitesparse::ewise_mult(c, write, Binary::Times, a, b),
            MatrixOperation::EwiseAdd => suitesparse::ewise_add(c, write, Binary::Times, a, b),
            MatrixOperation::Apply => {
                let apply = Apply::ScalarSecond(Binary::Times, SCALAR as i32);
                suitesparse::apply(c, write, apply, a)
            }
            MatrixOperation::Extract { rows, cols } => suitesparse::extract(c, write, a, rows, cols),
            MatrixOperation::Select => suitesparse::select(c, write, Condition::ValueGe, THRESHOLD as i32, a),
            MatrixOperation::Assign { rows, cols } => suitesparse::assign(c, write, a, rows, cols),
            MatrixOperation::Kronecker => suitesparse::kronecker(c, write, Binary::Times, a, b),
        };
        done.expect(FAILED);
    }

    fn repeats(&self) -> bool {
        false
    }
}

impl Peer for MatrixCall {
    fn result(&self) -> Entries {
        entries_of(&self.c)
    }
}

/// `vxm` and `reduce_rows`, whose vectors are no matrices here.
struct VectorCall {
    /// Of `vxm`.
    product: Option<(Semiring, Vector)>,
    a: Matrix,
    mask: Option<Vector>,
    accumulator: Option<Binary>,
    descriptor: Descriptor,
    old: Vector,
    w: Vector,
}

impl VectorCall {
    fn new(job: &LentJob, product: Option<(Semiring, Vector)>, a: Matrix) -> Self {
        VectorCall {
            product,
            a,
            mask: (job.options.has_mask != 0).then(|| vector(&job.mask)),
            accumulator: accumulator(job),
            descriptor: Descriptor::new(job.options.flags).expect(FAILED),
            old: vector(&job.c),
            w: vector(&job.c),
        }
    }
}

impl Subject for VectorCall {
    fn restore(&mut self, _: &mut Buffers) {
        self.w = self.old.duplicate().expect(FAILED);
    }

    fn call(&mut self, _: &mut Buffers) {
        let write = WriteBack { mask: self.mask.as_ref(), accumulator: self.accumulator, descriptor: &self.descriptor };
        let done = match &self.product {
            Some((semiring, u)) => suitesparse::vxm(&self.w, write, semiring, u, &self.a),
            None => suitesparse::reduce_rows(&self.w, write, Monoid::Plus, &self.a),
        };
        done.expect(FAILED);
    }

    fn repeats(&self) -> bool {
        false
    }
}

impl Peer for VectorCall {
    fn result(&self) -> Entries {
        let cols = self.w.size().expect(FAILED) as usize;
        let pairs = self.w.pairs().expect(FAILED);
        Entries { rows: 1, cols, cells: pairs.into_iter().map(|(j, value)| ((0, j), value)).collect() }
    }
}
