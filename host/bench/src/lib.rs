//! Times the library's calls beside the same calls of an ordinary Rust program, and beside SuiteSparse:GraphBLAS.
//!
//! `ordinary` is the ordinary program. `entries` and `scene` make the matrices, `cases` what is measured on them;
//! `jobs` carries a call out by the library or the ordinary program, `peer` by SuiteSparse. `timing` takes samples,
//! `rounds` all of them, `instructions` counts by callgrind, `table` writes it all down.

pub mod cases;
pub mod entries;
pub mod instructions;
pub mod jobs;
pub mod machine;
pub mod ordinary;
pub mod peer;
pub mod rounds;
pub mod scene;
pub mod table;
pub mod timing;
