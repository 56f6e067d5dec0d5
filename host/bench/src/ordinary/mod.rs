//! The library's calls as ordinary Rust without proofs: the same arguments and answers, the same refusals in the same
//! order, the whole validity test of every matrix or store that a call gets, and the same words afterwards.
//!
//! It allocates nothing. The operations compute in the lent workspace, formulas in the lent stack, and clear their whole
//! length, as the rules demand; one row, a dense row, the keys and doors that were found and a file's words are kept on the
//! program's own stack.

mod answer;
mod compute;
mod day;
mod dense;
mod doors;
mod files;
mod formula;
mod lent;
mod matrix;
mod merge;
mod operators;
mod output;
mod request;
mod sections;
mod store;
mod transpose;

pub use day::{day_back, day_fold, day_read, day_rewrite, day_show};
pub use doors::open_doors;
pub use files::{read_file, write_file, write_text};
pub use formula::store_formula;
pub use lent::{
    apply, assign, check, ewise_add, ewise_mult, extract, kronecker, mxm, new_empty, read_cell, reduce, reduce_rows,
    row_view, select, vxm,
};
pub use store::{
    store_apply, store_assign, store_clear_cell, store_drop, store_ewise_add, store_ewise_mult, store_extract,
    store_kronecker, store_mxm, store_new_empty, store_read_cell, store_reduce, store_reduce_rows, store_select,
    store_set_cell, store_vxm,
};
