//! SuiteSparse:GraphBLAS (version 7, the Debian package libgraphblas-dev) on matrices of 32-bit whole numbers: the
//! operations, operators, masks, accumulators and flags that Ostrubel has too, with the same numbers.
//!
//! The library is started by the first object that is made, in non-blocking mode, with one thread, and is never ended;
//! each object is freed with its owner. Every operation waits until its result is materialized, so nothing is left to
//! do when it returns. Each call's info code is checked. All unsafe code is in the module `raw`.

#![deny(unsafe_code)]

mod operators;
#[allow(unsafe_code)]
mod raw;
mod triples;

pub use operators::{Apply, Binary, Condition, IndexUnary, Monoid, Unary};
pub use raw::objects::{Descriptor, Matrix, Semiring, Vector};
pub use raw::operations::{
    apply, apply_index, assign, ewise_add, ewise_mult, extract, kronecker, mxm, reduce, reduce_rows, select, vxm,
    WriteBack,
};
pub use raw::{threads, version, Error};

/// Outside the mask C loses its entries.
pub const REPLACE: u32 = 1;
/// The mask is complemented.
pub const COMPLEMENT: u32 = 2;
/// An entry of the mask counts whatever its value.
pub const STRUCTURAL: u32 = 4;
/// The first input is transposed.
pub const TRANSPOSE_FIRST: u32 = 8;
/// The second input is transposed.
pub const TRANSPOSE_SECOND: u32 = 16;
