//! Answers, and their form as one number.

use super::matrix::Cell;

/// Why a call is refused, with its code.
#[derive(Clone, Copy, Debug, PartialEq, Eq)]
pub enum Refusal {
    FlagsOutOfRange = 1,
    UnknownOperator = 2,
    InvalidFirst = 3,
    InvalidSecond = 4,
    InvalidMask = 5,
    InvalidOutput = 6,
    IndexOutOfBounds = 7,
    InvalidShape = 8,
    WorkspaceTooShort = 9,
    TooManyEntries = 10,
    InsufficientSpace = 11,
    InvalidStore = 12,
    EmptySlot = 13,
    InvalidFormula = 14,
    InvalidFile = 15,
}

pub type Result<T> = std::result::Result<T, Refusal>;

/// `refusal`, unless the condition holds.
pub fn ensure(condition: bool, refusal: Refusal) -> Result<()> {
    if condition {
        Ok(())
    } else {
        Err(refusal)
    }
}

/// The code in the lower word, the entries in the upper.
pub fn pack(answer: Result<usize>) -> u64 {
    match answer {
        Ok(entries) => (entries as u64) << 32,
        Err(refusal) => refusal as u64,
    }
}

/// The same for a cell that was read: 256 stands for one that is present; the position of its entry is above that.
pub fn pack_cell(answer: Result<Cell>) -> u64 {
    match answer {
        Ok(Cell { value: Some(value), position }) => 256 | (position as u64) << 16 | u64::from(value) << 32,
        Ok(Cell { value: None, position }) => (position as u64) << 16,
        Err(refusal) => refusal as u64,
    }
}

/// The same for a matrix that was reduced to a number.
pub fn pack_number(answer: Result<u32>) -> u64 {
    match answer {
        Ok(number) => u64::from(number) << 32,
        Err(refusal) => refusal as u64,
    }
}

/// The place of a part of two matrices' words: which matrix, how many words, from which word on.
pub fn pack_part(in_second: bool, from: usize, count: usize) -> u64 {
    u64::from(in_second) | (count as u64) << 8 | (from as u64) << 32
}
