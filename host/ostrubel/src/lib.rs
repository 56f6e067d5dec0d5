//! Sparse whole-number matrices with GraphBLAS operations: a safe interface to the proved library.
//!
//! A [`Matrix`] has a value or none in each cell. Ten operations write into one: [`Matrix::mxm`], [`Matrix::vxm`],
//! [`Matrix::ewise_mult`], [`Matrix::ewise_add`], [`Matrix::apply`], [`Matrix::extract`], [`Matrix::select`],
//! [`Matrix::reduce_rows`], [`Matrix::assign`] and [`Matrix::kronecker`], each by its [`Options`]: a mask, an accumulator
//! and flags. [`Matrix::reduce`] gives one number.
//! [`Matrix::to_bytes`] and [`Matrix::from_bytes`] carry one in a file. [`Matrix::open_doors`] answers which doors open by
//! keys of which some are behind doors. [`DayOver`] keeps rewritten rows beside a matrix. A [`Store`] has eight matrices in
//! one buffer, and the same operations by slots; [`Store::formula`] works out a formula such as `0*1+2` over them. A
//! refused call is an [`Error`] and changes nothing.
//!
//! # A phone that was late
//!
//! Rows are keys, columns are reports (0: seen, 1: lost), and a value is the time stamp of the latest report. A phone
//! that was out of reach hands in an old sheet. Merged under MAX, it cannot undo a later report:
//!
//! ```
//! use ostrubel::{ApplyOp, BinaryOp, Error, Matrix, Options, UnaryOp};
//!
//! let mut office = Matrix::from_triples(9, 2, [(7, 0, 1400), (7, 1, 1520)])?;
//! let late_phone = Matrix::from_triples(9, 2, [(4, 0, 1310), (7, 0, 1250), (7, 1, 800)])?;
//!
//! let newest = Options::new().accumulate(BinaryOp::Max);
//! office.apply(ApplyOp::Unary(UnaryOp::Identity), &late_phone, &newest)?;
//!
//! assert_eq!(office.get(7, 1)?, Some(1520)); // key 7 is still reported lost, at the later stamp
//! assert_eq!(office.get(4, 0)?, Some(1310)); // what only the phone knew is there too
//! # Ok::<(), Error>(())
//! ```
//!
//! # What rests on what
//!
//! What the operations answer and write is proved of the library's own code. This crate adds types: it reads words that
//! the library has accepted, and what it builds itself it has the library check. [`calls`] has the library's calls as
//! they are, on slices of words; the only unsafe code is there.

#![deny(missing_docs, unsafe_code)]

mod answer;
#[allow(unsafe_code)]
pub mod calls;
mod day_over;
mod descriptor;
mod doors;
mod entries;
mod error;
mod files;
mod formula;
mod layout;
mod limits;
mod matrix;
mod matrix_operations;
mod operators;
mod options;
mod picture;
mod store;
mod store_operations;
mod workspace;

pub use day_over::DayOver;
pub use descriptor::Descriptor;
pub use entries::{Entries, IntoEntries};
pub use error::Error;
pub use formula::{check_formula, FormulaError};
pub use limits::{
    FORMULA_WORDS, MAX_ALLOWANCE, MAX_BRACKETS, MAX_COLS, MAX_ENTRIES, MAX_FILE_BYTES, MAX_FORMULA_BYTES, MAX_INDEXES,
    MAX_MATRIX_WORDS, MAX_ROWS, MAX_STORE_WORDS, MAX_TEXT_BYTES, MIN_STORE_WORDS, SLOTS, STACK_BYTES, WORKSPACE_WORDS,
};
pub use matrix::{Found, Matrix, Section};
pub use operators::{ApplyOp, BinaryOp, IndexUnaryOp, Monoid, SelectOp, Semiring, UnaryOp};
pub use options::Options;
pub use store::Store;
