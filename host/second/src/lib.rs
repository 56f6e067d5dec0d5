//! An independent second program: document 01 written again in plain Rust, from the papers and not
//! from the library's code, compared with the library on random calls. After each call the answer
//! and every word of every lent buffer are held against the model's.
//!
//! `calls` says what a call is; `operators`, `grid`, `model`, `lent` and `store_grids` are the model, with
//! places for the planted faults of `fault`; `generate*` makes calls, `full_rows` those on each cell of a row; `ffi` and
//! `library` carry them out; `compare` finds differences; `shrink` and `describe` show a small failing case. `merges` merges
//! sheets in several orders; `files` reads and writes files and texts, `program` runs the program that prints them;
//! `doors` asks which doors open within an allowance of rounds; `days` rewrites, reads and folds a day sheet over a base
//! sheet; `formulas` works out formulas over a store, alone and in lists of calls. `rng` and `arguments`, random numbers and
//! a program's options, serve `bench` and `peer` too.

pub mod arguments;
pub mod calls;
pub mod compare;
pub mod days;
pub mod describe;
pub mod doors;
pub mod fault;
mod ffi;
pub mod files;
pub mod formulas;
pub mod full_rows;
mod generate;
pub mod generate_lent;
pub mod generate_store;
pub mod grid;
mod lent;
pub mod library;
pub mod merges;
pub mod model;
mod operators;
pub mod program;
pub mod revisions;
pub mod rng;
pub mod shrink;
pub mod store_grids;
#[cfg(test)]
mod worked_sheets;
