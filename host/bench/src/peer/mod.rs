//! SuiteSparse's side: the same calls on objects that were made beforehand. Without the feature `suitesparse` it has
//! none.

#[cfg(feature = "suitesparse")]
mod elements;
#[cfg(feature = "suitesparse")]
mod operations;

use crate::entries::Entries;
#[cfg(not(feature = "suitesparse"))]
use crate::jobs::{LentJob, StoreCall};
use crate::timing::Subject;
#[cfg(feature = "suitesparse")]
pub use elements::{element, row};
#[cfg(feature = "suitesparse")]
pub use operations::{formula, operation, total};

/// A call whose result can be looked at.
pub trait Peer: Subject {
    /// The entries of C, after a call.
    fn result(&self) -> Entries;
}

/// An operation on lent matrices.
#[cfg(not(feature = "suitesparse"))]
pub fn operation(_: &LentJob) -> Option<Box<dyn Peer>> {
    None
}

/// A formula without brackets over matrices in the slots from 0 on.
#[cfg(not(feature = "suitesparse"))]
pub fn formula(_: &str, _: &[&Entries]) -> Option<Box<dyn Peer>> {
    None
}

/// A matrix reduced to a number, and the number.
#[cfg(not(feature = "suitesparse"))]
pub fn total(_: &[u32]) -> Option<(Box<dyn Subject>, i32)> {
    None
}

/// A call on one cell of a slot's matrix.
#[cfg(not(feature = "suitesparse"))]
pub fn element(_: &StoreCall, _: &Entries) -> Option<Box<dyn Peer>> {
    None
}

/// Each cell of a vector, read one by one.
#[cfg(not(feature = "suitesparse"))]
pub fn row(_: &Entries) -> Option<Box<dyn Peer>> {
    None
}

/// The version of SuiteSparse:GraphBLAS, if it is measured.
pub fn version() -> Option<String> {
    #[cfg(feature = "suitesparse")]
    {
        let [major, minor, patch] = suitesparse::version().expect("SuiteSparse tells its version");
        Some(format!("{major}.{minor}.{patch}"))
    }
    #[cfg(not(feature = "suitesparse"))]
    None
}
