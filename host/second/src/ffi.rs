//! Calls by the library's functions, chosen by the operation.

use crate::calls::{Operation, Options};
use ostrubel::calls;

/// The library's engines of the product.
#[derive(Clone, Copy, PartialEq, Eq)]
pub enum Engine {
    ByPlaces,
    ByEntries,
}

/// An operation on lent sheets; `a`, `b` and `mask` may be one slice. The engine is the product's.
pub fn operation(
    engine: Engine,
    operation: &Operation,
    options: &Options,
    [a, b, mask]: [&[u32]; 3],
    [rows, cols]: [&[u32]; 2],
    c: &mut [u32],
    work: &mut [u32],
) -> u64 {
    let options = options.numbers();
    match *operation {
        Operation::Mxm { monoid, op } if engine == Engine::ByPlaces => {
            calls::mxm_by_places(options, monoid, op, a, b, mask, c, work)
        }
        Operation::Vxm { monoid, op } if engine == Engine::ByPlaces => {
            calls::vxm_by_places(options, monoid, op, a, b, mask, c, work)
        }
        Operation::Mxm { monoid, op } => calls::mxm(options, monoid, op, a, b, mask, c, work),
        Operation::Vxm { monoid, op } => calls::vxm(options, monoid, op, a, b, mask, c, work),
        Operation::EwiseMult { op } => calls::ewise_mult(options, op, a, b, mask, c, work),
        Operation::EwiseAdd { op } => calls::ewise_add(options, op, a, b, mask, c, work),
        Operation::Apply { kind, op, scalar } => calls::apply(options, kind, op, scalar, a, mask, c, work),
        Operation::Extract { .. } => calls::extract(options, a, rows, cols, mask, c, work),
        Operation::Select { op, scalar } => calls::select(options, op, scalar, a, mask, c, work),
        Operation::ReduceRows { monoid } => calls::reduce_rows(options, monoid, a, mask, c, work),
        Operation::Assign { .. } => calls::assign(options, a, rows, cols, mask, c, work),
        Operation::Kronecker { op } => calls::kronecker(options, op, a, b, mask, c, work),
    }
}

/// An operation on the store.
pub fn store_operation(
    store: &mut [u32],
    operation: &Operation,
    options: &Options,
    [a, b, mask, c]: [usize; 4],
    [rows, cols]: [&[u32]; 2],
    work: &mut [u32],
) -> u64 {
    let options = options.numbers();
    match *operation {
        Operation::Mxm { monoid, op } => calls::store_mxm(options, monoid, op, a, b, mask, c, store, work),
        Operation::Vxm { monoid, op } => calls::store_vxm(options, monoid, op, a, b, mask, c, store, work),
        Operation::EwiseMult { op } => calls::store_ewise_mult(options, op, a, b, mask, c, store, work),
        Operation::EwiseAdd { op } => calls::store_ewise_add(options, op, a, b, mask, c, store, work),
        Operation::Apply { kind, op, scalar } => calls::store_apply(options, kind, op, scalar, a, mask, c, store, work),
        Operation::Extract { .. } => calls::store_extract(options, a, mask, c, store, rows, cols, work),
        Operation::Select { op, scalar } => calls::store_select(options, op, scalar, a, mask, c, store, work),
        Operation::ReduceRows { monoid } => calls::store_reduce_rows(options, monoid, a, mask, c, store, work),
        Operation::Assign { .. } => calls::store_assign(options, a, mask, c, store, rows, cols, work),
        Operation::Kronecker { op } => calls::store_kronecker(options, op, a, b, mask, c, store, work),
    }
}
