//! Calls with their inputs, carried out by the library or by the ordinary program on the same buffers.

use crate::ordinary as ordinary_calls;
use crate::timing::Subject;
use ostrubel::calls::{self as library_calls, OptionNumbers};
use std::hint::black_box;
use std::rc::Rc;

use ostrubel::{FORMULA_WORDS, MAX_ALLOWANCE, MAX_TEXT_BYTES};
pub use ostrubel::{MAX_MATRIX_WORDS as MATRIX_WORDS, MAX_STORE_WORDS as STORE_WORDS, WORKSPACE_WORDS as WORK_WORDS};

pub const REPLACE: u32 = 1;
pub const STRUCTURAL: u32 = 4;
pub const TRANSPOSE_FIRST: u32 = 8;
/// A call with higher flags is refused, and looks at nothing.
const MAX_FLAGS: u32 = 31;

/// The operators that are measured: PLUS as monoid and accumulator, TIMES everywhere else.
pub const PLUS: u32 = 3;
pub const TIMES: u32 = 5;
/// Apply multiplies by a scalar: the kind with the scalar second.
const SCALAR_SECOND: u32 = 2;
pub const SCALAR: u32 = 3;
/// Select keeps what is at least this: some half of the values.
const VALUEGE: u32 = 5;
pub const THRESHOLD: u32 = 0;

/// The buffers that calls write: the same for the library and the ordinary program.
#[derive(Clone, PartialEq, Eq)]
pub struct Buffers {
    /// C, or a new matrix, or the day matrix.
    pub c: Vec<u32>,
    pub marks: Vec<u32>,
    pub store: Vec<u32>,
    pub work: Vec<u32>,
    /// Of formulas.
    pub stack: Vec<u32>,
    /// A file or a text.
    pub bytes: Vec<u8>,
}

impl Default for Buffers {
    fn default() -> Self {
        Buffers {
            c: vec![0; MATRIX_WORDS],
            marks: vec![0; MATRIX_WORDS],
            store: vec![0; STORE_WORDS],
            work: vec![0; WORK_WORDS],
            stack: vec![0; FORMULA_WORDS],
            bytes: vec![0; MAX_TEXT_BYTES],
        }
    }
}

pub enum Operation {
    Mxm,
    Vxm,
    EwiseMult,
    EwiseAdd,
    Apply,
    Extract { rows: Vec<u32>, cols: Vec<u32> },
    Select,
    ReduceRows,
    Assign { rows: Vec<u32>, cols: Vec<u32> },
    Kronecker,
}

/// An operation on lent matrices. `c` is old C.
pub struct LentJob {
    pub operation: Operation,
    pub options: OptionNumbers,
    pub a: Vec<u32>,
    pub b: Vec<u32>,
    pub mask: Vec<u32>,
    pub c: Vec<u32>,
}

pub enum StoreCall {
    NewEmpty { slot: usize, rows: u32, cols: u32 },
    Drop { slot: usize },
    SetCell { slot: usize, i: u32, j: u32, value: u32 },
    ClearCell { slot: usize, i: u32, j: u32 },
    ReadCell { slot: usize, i: u32, j: u32 },
    Reduce { slot: usize },
    Formula { target: usize, text: &'static str },
    Operation { operation: Operation, options: OptionNumbers, a: usize, b: usize, mask: usize, c: usize },
}

pub enum DayCall {
    Rewrite { i: u32 },
    Back { i: u32 },
    Read { i: u32, j: u32 },
    Fold,
}

/// A call on a day matrix over a base matrix. `row` is the new row.
pub struct DayJob {
    pub call: DayCall,
    pub base: Vec<u32>,
    pub day: Vec<u32>,
    pub marks: Vec<u32>,
    pub row: Vec<u32>,
}

pub enum Job {
    /// The check of a matrix.
    Check(Vec<u32>),
    /// Zeros over the workspace, by no call.
    Fill,
    /// A matrix reduced to a number.
    Reduce(Vec<u32>),
    /// Each cell of a lent vector, read one by one.
    ReadRow {
        words: Vec<u32>,
        cols: u32,
    },
    Lent(LentJob),
    /// A call on a store with these words.
    Store(StoreCall, Vec<u32>),
    Day(DayJob),
    ReadFile(Vec<u8>),
    WriteFile(Vec<u32>),
    WriteText(Vec<u32>),
    /// The doors that open, as far as there are rounds.
    Doors {
        locks: Vec<u32>,
        cabinets: Vec<u32>,
        hand: Vec<u32>,
    },
}

impl Job {
    /// Old C, the old store or the old day matrix and marks into their buffers. Workspace and stack are as the last call
    /// left them: zeros.
    pub fn restore(&self, buffers: &mut Buffers) {
        match self {
            Job::Lent(job) => buffers.c[..job.c.len()].copy_from_slice(&job.c),
            Job::Store(_, store) => buffers.store.copy_from_slice(store),
            Job::Day(job) if job.writes() => {
                buffers.c[..job.day.len()].copy_from_slice(&job.day);
                buffers.marks[..job.marks.len()].copy_from_slice(&job.marks);
            }
            _ => {}
        }
    }

    /// Whether a second call finds and does what the first one did.
    pub fn repeats(&self) -> bool {
        use StoreCall::{ReadCell, Reduce};
        match self {
            Job::Lent(_) => false,
            Job::Store(call, _) => matches!(call, ReadCell { .. } | Reduce { .. }),
            Job::Day(job) => !job.writes(),
            _ => true,
        }
    }

    /// Each word that the call is to look at is read once, each of old C, of the workspace and of the stack is written once.
    /// Workspace and stack are left as a call leaves them.
    fn floor(&self, Buffers { c, store, work, stack, .. }: &mut Buffers) -> u32 {
        match self {
            Job::Check(words) | Job::Reduce(words) | Job::WriteFile(words) | Job::WriteText(words) => read(words),
            Job::ReadFile(bytes) => u32::from(bytes.iter().fold(0, |bits, byte| bits | byte)),
            Job::Day(job) => read_all(&job.inputs()),
            Job::Doors { locks, cabinets, hand } => read_all(&[locks, cabinets, hand]) | write(work),
            Job::Fill => write(work),
            Job::ReadRow { words, cols } => (0..*cols).fold(0, |bits, _| bits | read(black_box(words))),
            Job::Lent(job) if job.options.flags > MAX_FLAGS => write(work),
            Job::Lent(job) => {
                let old = &mut c[..job.c.len()];
                read_all(&job.inputs()) | read(old) | write(old) | write(work)
            }
            Job::Store(StoreCall::Operation { operation, .. }, _) => {
                read(store) | read_all(&operation.lists()) | write(work)
            }
            Job::Store(StoreCall::Formula { .. }, _) => read(store) | write(stack),
            Job::Store(..) => read(store),
        }
    }
}

impl LentJob {
    /// What the call reads beside old C; no words for what it has not.
    fn inputs(&self) -> [&[u32]; 5] {
        use Operation::{EwiseAdd, EwiseMult, Kronecker, Mxm, Vxm};
        let has_second = matches!(self.operation, Mxm | Vxm | EwiseMult | EwiseAdd | Kronecker);
        let b = if has_second { &self.b[..] } else { &[] };
        let mask = if self.options.has_mask != 0 { &self.mask[..] } else { &[] };
        let [rows, cols] = self.operation.lists();
        [&self.a, b, mask, rows, cols]
    }
}

impl DayJob {
    /// Whether it writes into the day matrix and the marks.
    fn writes(&self) -> bool {
        matches!(self.call, DayCall::Rewrite { .. } | DayCall::Back { .. })
    }

    /// What the call reads; no words for what it has not.
    fn inputs(&self) -> [&[u32]; 4] {
        let base = if self.writes() { &[] } else { &self.base[..] };
        let row = if matches!(self.call, DayCall::Rewrite { .. }) { &self.row[..] } else { &[] };
        [base, &self.day, &self.marks, row]
    }
}

impl Operation {
    fn lists(&self) -> [&[u32]; 2] {
        match self {
            Operation::Extract { rows, cols } | Operation::Assign { rows, cols } => [rows, cols],
            _ => [&[], &[]],
        }
    }
}

fn read(words: &[u32]) -> u32 {
    words.iter().fold(0, |bits, word| bits | word)
}

fn read_all(parts: &[&[u32]]) -> u32 {
    parts.iter().fold(0, |bits, words| bits | read(words))
}

fn write(words: &mut [u32]) -> u32 {
    words.fill(0);
    0
}

/// A job by the library or by the ordinary program: the answer.
pub type Program = fn(&Job, &mut Buffers) -> u64;

/// Jobs by the functions of a module.
macro_rules! program {
    ($name:ident, $calls:ident) => {
        pub mod $name {
            use super::*;

            pub fn run(job: &Job, buffers: &mut Buffers) -> u64 {
                match job {
                    Job::Check(words) => $calls::check(words),
                    Job::Reduce(words) => $calls::reduce(PLUS, words),
                    Job::Fill => {
                        buffers.work.fill(0);
                        0
                    }
                    Job::ReadRow { words, cols } => (0..*cols).fold(0, |answers: u64, j| {
                        answers.wrapping_mul(31) ^ $calls::read_cell(0, j, black_box(words))
                    }),
                    Job::Lent(job) => lent(job, &mut buffers.c, &mut buffers.work),
                    Job::Store(call, _) => store(call, buffers),
                    Job::Day(job) => day(job, &mut buffers.c, &mut buffers.marks),
                    Job::ReadFile(file) => $calls::read_file(file, &mut buffers.c),
                    Job::WriteFile(words) => $calls::write_file(words, &mut buffers.bytes),
                    Job::WriteText(words) => $calls::write_text(words, &mut buffers.bytes),
                    Job::Doors { locks, cabinets, hand } => {
                        let Buffers { c, work, .. } = buffers;
                        $calls::open_doors(MAX_ALLOWANCE, locks, cabinets, hand, c, work)
                    }
                }
            }

            fn day(job: &DayJob, c: &mut [u32], marks: &mut [u32]) -> u64 {
                match job.call {
                    DayCall::Rewrite { i } => $calls::day_rewrite(i, &job.row, c, marks),
                    DayCall::Back { i } => $calls::day_back(i, c, marks),
                    DayCall::Read { i, j } => $calls::day_read(i, j, &job.base, &job.day, &job.marks),
                    DayCall::Fold => $calls::day_fold(&job.base, &job.day, &job.marks, c),
                }
            }

            fn lent(job: &LentJob, c: &mut [u32], work: &mut [u32]) -> u64 {
                let LentJob { operation, options, a, b, mask, .. } = job;
                match operation {
                    Operation::Mxm => $calls::mxm(*options, PLUS, TIMES, a, b, mask, c, work),
                    Operation::Vxm => $calls::vxm(*options, PLUS, TIMES, a, b, mask, c, work),
                    Operation::EwiseMult => $calls::ewise_mult(*options, TIMES, a, b, mask, c, work),
                    Operation::EwiseAdd => $calls::ewise_add(*options, TIMES, a, b, mask, c, work),
                    Operation::Apply => $calls::apply(*options, SCALAR_SECOND, TIMES, SCALAR, a, mask, c, work),
                    Operation::Extract { rows, cols } => $calls::extract(*options, a, rows, cols, mask, c, work),
                    Operation::Select => $calls::select(*options, VALUEGE, THRESHOLD, a, mask, c, work),
                    Operation::ReduceRows => $calls::reduce_rows(*options, PLUS, a, mask, c, work),
                    Operation::Assign { rows, cols } => $calls::assign(*options, a, rows, cols, mask, c, work),
                    Operation::Kronecker => $calls::kronecker(*options, TIMES, a, b, mask, c, work),
                }
            }

            fn store(call: &StoreCall, buffers: &mut Buffers) -> u64 {
                let Buffers { store: words, work, stack, .. } = buffers;
                match *call {
                    StoreCall::NewEmpty { slot, rows, cols } => $calls::store_new_empty(slot, rows, cols, words),
                    StoreCall::Drop { slot } => $calls::store_drop(slot, words),
                    StoreCall::SetCell { slot, i, j, value } => $calls::store_set_cell(slot, i, j, value, words),
                    StoreCall::ClearCell { slot, i, j } => $calls::store_clear_cell(slot, i, j, words),
                    StoreCall::ReadCell { slot, i, j } => $calls::store_read_cell(slot, i, j, words),
                    StoreCall::Reduce { slot } => $calls::store_reduce(slot, PLUS, words),
                    StoreCall::Formula { target, text } => {
                        $calls::store_formula(target, PLUS, TIMES, text.as_bytes(), words, stack)
                    }
                    StoreCall::Operation { ref operation, options, a, b, mask, c } => {
                        store_operation(operation, options, [a, b, mask, c], words, work)
                    }
                }
            }

            fn store_operation(
                operation: &Operation,
                options: OptionNumbers,
                [a, b, mask, c]: [usize; 4],
                words: &mut [u32],
                work: &mut [u32],
            ) -> u64 {
                match operation {
                    Operation::Mxm => $calls::store_mxm(options, PLUS, TIMES, a, b, mask, c, words, work),
                    Operation::Vxm => $calls::store_vxm(options, PLUS, TIMES, a, b, mask, c, words, work),
                    Operation::EwiseMult => $calls::store_ewise_mult(options, TIMES, a, b, mask, c, words, work),
                    Operation::EwiseAdd => $calls::store_ewise_add(options, TIMES, a, b, mask, c, words, work),
                    Operation::Apply => {
                        $calls::store_apply(options, SCALAR_SECOND, TIMES, SCALAR, a, mask, c, words, work)
                    }
                    Operation::Extract { rows, cols } => {
                        $calls::store_extract(options, a, mask, c, words, rows, cols, work)
                    }
                    Operation::Select => $calls::store_select(options, VALUEGE, THRESHOLD, a, mask, c, words, work),
                    Operation::ReduceRows => $calls::store_reduce_rows(options, PLUS, a, mask, c, words, work),
                    Operation::Assign { rows, cols } => {
                        $calls::store_assign(options, a, mask, c, words, rows, cols, work)
                    }
                    Operation::Kronecker => $calls::store_kronecker(options, TIMES, a, b, mask, c, words, work),
                }
            }
        }
    };
}

program!(library, library_calls);
program!(ordinary, ordinary_calls);

/// A job to be timed.
pub struct ProgramSubject {
    pub job: Rc<Job>,
    pub program: Program,
}

impl Subject for ProgramSubject {
    fn restore(&mut self, buffers: &mut Buffers) {
        self.job.restore(buffers);
    }

    fn call(&mut self, buffers: &mut Buffers) {
        black_box((self.program)(black_box(&self.job), buffers));
    }

    fn repeats(&self) -> bool {
        self.job.repeats()
    }

    fn floor(&mut self, buffers: &mut Buffers) {
        black_box(black_box(&self.job).floor(buffers));
    }
}
