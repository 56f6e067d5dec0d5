//! Calls with all their arguments, and what a call leaves behind.

use crate::rng::Rng;
use ostrubel::calls::OptionNumbers;

pub const REPLACE: u32 = 1;
pub const COMPLEMENT: u32 = 2;
pub const STRUCTURAL: u32 = 4;
pub const TRANSPOSE_FIRST: u32 = 8;
pub const TRANSPOSE_SECOND: u32 = 16;

/// Document 02, A12: "the work buffer 15,315".
pub const WORK_WORDS: usize = 15_315;

#[derive(Clone, Debug)]
pub struct Options {
    pub flags: u32,
    pub has_mask: bool,
    pub has_accumulator: bool,
    pub accumulator: u32,
    /// The number other than 0 by which a mask or an accumulator is said to be there.
    pub yes: u32,
}

impl Options {
    /// The options as they are passed.
    pub fn numbers(&self) -> OptionNumbers {
        let word = |is_there| if is_there { self.yes } else { 0 };
        OptionNumbers {
            flags: self.flags,
            has_mask: word(self.has_mask),
            has_accumulator: word(self.has_accumulator),
            accumulator: self.accumulator,
        }
    }

    pub fn has(&self, flag: u32) -> bool {
        self.flags & flag != 0
    }
}

#[derive(Clone, Debug)]
pub enum Operation {
    Mxm { monoid: u32, op: u32 },
    Vxm { monoid: u32, op: u32 },
    EwiseMult { op: u32 },
    EwiseAdd { op: u32 },
    Apply { kind: u32, op: u32, scalar: u32 },
    Extract { rows: Vec<u32>, cols: Vec<u32> },
    Select { op: u32, scalar: u32 },
    ReduceRows { monoid: u32 },
    Assign { rows: Vec<u32>, cols: Vec<u32> },
    Kronecker { op: u32 },
}

impl Operation {
    pub fn has_second(&self) -> bool {
        matches!(
            self,
            Operation::Mxm { .. }
                | Operation::Vxm { .. }
                | Operation::EwiseMult { .. }
                | Operation::EwiseAdd { .. }
                | Operation::Kronecker { .. }
        )
    }

    /// The lists of rows and of columns, where the operation has them.
    pub fn lists(&self) -> Option<[&Vec<u32>; 2]> {
        match self {
            Operation::Extract { rows, cols } | Operation::Assign { rows, cols } => Some([rows, cols]),
            _ => None,
        }
    }

    pub fn lists_mut(&mut self) -> Option<[&mut Vec<u32>; 2]> {
        match self {
            Operation::Extract { rows, cols } | Operation::Assign { rows, cols } => Some([rows, cols]),
            _ => None,
        }
    }

    /// The numbers that choose what is computed.
    pub fn numbers(&self) -> (u32, u32) {
        match *self {
            Operation::Mxm { monoid, op } | Operation::Vxm { monoid, op } => (monoid, op),
            Operation::EwiseMult { op } | Operation::EwiseAdd { op } | Operation::Kronecker { op } => (0, op),
            Operation::Apply { kind, op, .. } => (kind, op),
            Operation::Extract { .. } | Operation::Assign { .. } => (0, 0),
            Operation::Select { op, .. } => (0, op),
            Operation::ReduceRows { monoid } => (monoid, 0),
        }
    }

    pub fn name(&self) -> &'static str {
        match self {
            Operation::Mxm { .. } => "mxm",
            Operation::Vxm { .. } => "vxm",
            Operation::EwiseMult { .. } => "ewise_mult",
            Operation::EwiseAdd { .. } => "ewise_add",
            Operation::Apply { .. } => "apply",
            Operation::Extract { .. } => "extract",
            Operation::Select { .. } => "select",
            Operation::ReduceRows { .. } => "reduce_rows",
            Operation::Assign { .. } => "assign",
            Operation::Kronecker { .. } => "kronecker",
        }
    }
}

/// A work buffer: its length and the seed of the words in it before the call.
#[derive(Clone, Debug)]
pub struct Work {
    pub length: usize,
    pub seed: u64,
}

impl Work {
    pub fn words(&self) -> Vec<u32> {
        let mut rng = Rng::new(self.seed);
        (0..self.length).map(|_| rng.word()).collect()
    }
}

/// An operation on lent sheets. The roles `a`, `b` and `mask` name inputs by position, so that
/// one buffer may have several roles.
#[derive(Clone, Debug)]
pub struct LentOperation {
    pub operation: Operation,
    pub options: Options,
    pub inputs: Vec<Vec<u32>>,
    pub a: usize,
    pub b: usize,
    pub mask: usize,
    pub c: Vec<u32>,
    pub work: Work,
}

#[derive(Clone, Debug)]
pub enum LentCall {
    Check {
        words: Vec<u32>,
    },
    NewEmpty {
        words: Vec<u32>,
        rows: u32,
        cols: u32,
    },
    ReadCell {
        words: Vec<u32>,
        i: u32,
        j: u32,
    },
    /// A look at one row over two sheets: column numbers where `values` is 0, else values.
    RowView {
        first: Vec<u32>,
        second: Vec<u32>,
        i: u32,
        values: u32,
    },
    Reduce {
        words: Vec<u32>,
        monoid: u32,
    },
    Operation(LentOperation),
}

impl LentCall {
    pub fn name(&self) -> &'static str {
        match self {
            LentCall::Check { .. } => "check",
            LentCall::NewEmpty { .. } => "new_empty",
            LentCall::ReadCell { .. } => "read_cell",
            LentCall::RowView { .. } => "row_view",
            LentCall::Reduce { .. } => "reduce",
            LentCall::Operation(call) => call.operation.name(),
        }
    }
}

#[derive(Clone, Debug)]
pub struct StoreOperation {
    pub operation: Operation,
    pub options: Options,
    pub a: usize,
    pub b: usize,
    pub mask: usize,
    pub c: usize,
    pub work: Work,
}

#[derive(Clone, Debug)]
pub enum StoreCall {
    NewEmpty { slot: usize, rows: u32, cols: u32 },
    Drop { slot: usize },
    SetCell { slot: usize, i: u32, j: u32, value: u32 },
    ClearCell { slot: usize, i: u32, j: u32 },
    ReadCell { slot: usize, i: u32, j: u32 },
    Reduce { slot: usize, monoid: u32 },
    Operation(StoreOperation),
}

impl StoreCall {
    pub fn name(&self) -> &'static str {
        match self {
            StoreCall::NewEmpty { .. } => "store_new_empty",
            StoreCall::Drop { .. } => "store_drop",
            StoreCall::SetCell { .. } => "store_set_cell",
            StoreCall::ClearCell { .. } => "store_clear_cell",
            StoreCall::ReadCell { .. } => "store_read_cell",
            StoreCall::Reduce { .. } => "store_reduce",
            StoreCall::Operation(call) => match call.operation {
                Operation::Mxm { .. } => "store_mxm",
                Operation::Vxm { .. } => "store_vxm",
                Operation::EwiseMult { .. } => "store_ewise_mult",
                Operation::EwiseAdd { .. } => "store_ewise_add",
                Operation::Apply { .. } => "store_apply",
                Operation::Extract { .. } => "store_extract",
                Operation::Select { .. } => "store_select",
                Operation::ReduceRows { .. } => "store_reduce_rows",
                Operation::Assign { .. } => "store_assign",
                Operation::Kronecker { .. } => "store_kronecker",
            },
        }
    }
}

/// A store as it is before the first call, and calls on it.
#[derive(Clone, Debug)]
pub struct StoreList {
    pub store: Vec<u32>,
    pub calls: Vec<StoreCall>,
}

/// A lent buffer after a call.
#[derive(Clone, Debug)]
pub struct Buffer {
    pub name: String,
    pub words: Vec<u32>,
    /// Whether words beside the buffer were written.
    pub overrun: bool,
}

impl Buffer {
    pub fn new(name: &str, words: Vec<u32>) -> Self {
        Buffer { name: name.to_string(), words, overrun: false }
    }
}

/// The answer of a call and every word of each lent buffer afterwards.
#[derive(Clone, Debug)]
pub struct Outcome {
    pub answer: u64,
    pub buffers: Vec<Buffer>,
}

/// The answer of a call that writes or checks: a refusal number or 0, and a count.
pub fn counted(code: u32, entries: usize) -> u64 {
    u64::from(code) | (entries as u64) << 32
}

/// The answer of an accepted read: the cell, and the position of its entry.
pub fn present_or_absent(cell: Option<i32>, position: usize) -> u64 {
    let position = (position as u64) << 16;
    match cell {
        Some(value) => 256 | position | u64::from(value as u32) << 32,
        None => position,
    }
}

/// The answer of an accepted reduction to a number.
pub fn number(value: i32) -> u64 {
    u64::from(value as u32) << 32
}

/// The refusal number in an answer.
pub fn code_of(answer: u64) -> u32 {
    answer as u32 & 255
}

/// What an answer's number says.
#[derive(Clone, Copy, PartialEq, Eq)]
pub enum Answers {
    /// A code, and entries.
    Code,
    /// A code, whether a cell is present, its value and its position.
    Cell,
    /// A code, and a number with its sign.
    Number,
    /// Where a part of two sheets' words lies. There is no code.
    Part,
}

/// What the answers of a function say, by its name.
pub fn answers_of(name: &str) -> Answers {
    match name {
        "read_cell" | "store_read_cell" => Answers::Cell,
        "row_view" => Answers::Part,
        "reduce" | "store_reduce" => Answers::Number,
        _ => Answers::Code,
    }
}

/// The answer of a look at a row: whether it lies in the second sheet, at which word it begins, and how many it has.
pub fn part_answer(in_second: bool, from: usize, count: usize) -> u64 {
    u64::from(in_second) | (count as u64) << 8 | (from as u64) << 32
}
