//! Matrices, vectors, semirings and descriptors.
//!
//! Matrices and vectors are kept in the library's sparse and bitmap forms, between which it chooses. It also has a full
//! form, for matrices with all entries, and a hypersparse one, for those with few rows that have any. With these,
//! version 7.4.0 leaves its own memory, as valgrind shows:
//!
//! - An intersection or union of A and B, all of whose entries are there and not all equal, into a C all of whose
//!   entries are there and equal, without a mask or with one that takes in every position by its values: C has room for
//!   one value, and as many are written as there are entries (`GB_dense_ewise3_noaccum`).
//! - A write-back with an accumulator through a mask that has all entries, where T has few: an end by a segmentation
//!   fault (`GB_subassign_08n`).
//! - An intersection under replace into a C that is also an input and is hypersparse: the row numbers of the result are
//!   read after they were freed (`GB_transplant`).
//!
//! In the two forms that are left, a matrix with all entries is a bitmap, and none of the three was seen: this is what
//! runs show of one version, and no promise about it.

use super::operations::{binary_op, monoid_handle};
use super::{c, call, start, Error};
use crate::operators::{Binary, Monoid};
use crate::{COMPLEMENT, REPLACE, STRUCTURAL, TRANSPOSE_FIRST, TRANSPOSE_SECOND};
use std::ptr::null_mut;

/// An object by its handle, which is freed with it.
macro_rules! object {
    ($(#[$about:meta])* $name:ident $free:ident) => {
        $(#[$about])*
        pub struct $name(c::$name);

        impl $name {
            pub(super) fn handle(&self) -> c::$name {
                self.0
            }
        }

        impl Drop for $name {
            fn drop(&mut self) {
                let freed = unsafe { call!($free(&mut self.0)) };
                if let (Err(error), false) = (freed, std::thread::panicking()) {
                    panic!("{error}");
                }
            }
        }
    };
}

object!(
    /// A matrix of 32-bit whole numbers. The operations take even their C as a shared reference, so that one matrix may
    /// have several roles in a call.
    Matrix GrB_Matrix_free
);
object!(
    /// A vector of 32-bit whole numbers, for `vxm`.
    Vector GrB_Vector_free
);
object!(
    /// A monoid that adds up and a binary operator that multiplies.
    Semiring GrB_Semiring_free
);
object!(
    /// A sum of flags.
    Descriptor GrB_Descriptor_free
);

/// The rows, columns and values of a matrix's entries.
#[derive(Default)]
pub(crate) struct Tuples {
    pub rows: Vec<u64>,
    pub cols: Vec<u64>,
    pub values: Vec<i32>,
}

const FORMS: i32 = c::SPARSE | c::BITMAP;

/// Room for as many items as a call fills in.
fn room<T: Clone + Default>(count: u64) -> Vec<T> {
    vec![T::default(); count as usize]
}

impl Matrix {
    /// A matrix without entries.
    pub fn new(rows: u64, cols: u64) -> Result<Self, Error> {
        start()?;
        let mut handle = null_mut();
        unsafe { call!(GrB_Matrix_new(&mut handle, c::GrB_INT32, rows, cols))? };
        let matrix = Matrix(handle);
        unsafe { call!(GxB_Matrix_Option_set_INT32(handle, c::SPARSITY_CONTROL, FORMS))? };
        Ok(matrix)
    }

    /// A copy, in the same form.
    pub fn duplicate(&self) -> Result<Self, Error> {
        let mut handle = null_mut();
        unsafe { call!(GrB_Matrix_dup(&mut handle, self.0))? };
        Ok(Matrix(handle))
    }

    /// Puts entries into a matrix that has none; no position may come twice.
    pub(crate) fn build(&self, tuples: &Tuples) -> Result<(), Error> {
        let Tuples { rows, cols, values } = tuples;
        assert!(rows.len() == cols.len() && rows.len() == values.len(), "as many rows and columns as values");
        let entries = values.len() as u64;
        let (rows, cols, values) = (rows.as_ptr(), cols.as_ptr(), values.as_ptr());
        unsafe { call!(GrB_Matrix_build_INT32(self.0, rows, cols, values, entries, null_mut())) }
    }

    /// The entries, in any order.
    pub(crate) fn tuples(&self) -> Result<Tuples, Error> {
        let mut entries = self.entry_count()?;
        let (mut rows, mut cols, mut values) = (room(entries), room(entries), room(entries));
        let (to_rows, to_cols, to_values) = (rows.as_mut_ptr(), cols.as_mut_ptr(), values.as_mut_ptr());
        unsafe { call!(GrB_Matrix_extractTuples_INT32(to_rows, to_cols, to_values, &mut entries, self.0))? };
        Ok(Tuples { rows, cols, values })
    }

    /// Does what is left to do for the matrix.
    pub fn wait(&self) -> Result<(), Error> {
        unsafe { call!(GrB_Matrix_wait(self.0, c::MATERIALIZE)) }
    }

    pub fn entry_count(&self) -> Result<u64, Error> {
        let mut entries = 0;
        unsafe { call!(GrB_Matrix_nvals(&mut entries, self.0))? };
        Ok(entries)
    }

    /// Rows and columns.
    pub fn shape(&self) -> Result<(u64, u64), Error> {
        let (mut rows, mut cols) = (0, 0);
        unsafe {
            call!(GrB_Matrix_nrows(&mut rows, self.0))?;
            call!(GrB_Matrix_ncols(&mut cols, self.0))?;
        }
        Ok((rows, cols))
    }
}

impl Vector {
    /// A vector without entries.
    pub fn new(size: u64) -> Result<Self, Error> {
        start()?;
        let mut handle = null_mut();
        unsafe { call!(GrB_Vector_new(&mut handle, c::GrB_INT32, size))? };
        let vector = Vector(handle);
        unsafe { call!(GxB_Vector_Option_set_INT32(handle, c::SPARSITY_CONTROL, FORMS))? };
        Ok(vector)
    }

    /// A copy, in the same form.
    pub fn duplicate(&self) -> Result<Self, Error> {
        let mut handle = null_mut();
        unsafe { call!(GrB_Vector_dup(&mut handle, self.0))? };
        Ok(Vector(handle))
    }

    /// Puts entries into a vector that has none; no index may come twice.
    pub(crate) fn build(&self, indexes: &[u64], values: &[i32]) -> Result<(), Error> {
        assert!(indexes.len() == values.len(), "as many indexes as values");
        let entries = values.len() as u64;
        unsafe { call!(GrB_Vector_build_INT32(self.0, indexes.as_ptr(), values.as_ptr(), entries, null_mut())) }
    }

    /// The indexes and values of the entries, in any order.
    pub(crate) fn tuples(&self) -> Result<(Vec<u64>, Vec<i32>), Error> {
        let mut entries = self.entry_count()?;
        let (mut indexes, mut values) = (room(entries), room(entries));
        let (to_indexes, to_values) = (indexes.as_mut_ptr(), values.as_mut_ptr());
        unsafe { call!(GrB_Vector_extractTuples_INT32(to_indexes, to_values, &mut entries, self.0))? };
        Ok((indexes, values))
    }

    /// Does what is left to do for the vector.
    pub fn wait(&self) -> Result<(), Error> {
        unsafe { call!(GrB_Vector_wait(self.0, c::MATERIALIZE)) }
    }

    pub fn entry_count(&self) -> Result<u64, Error> {
        let mut entries = 0;
        unsafe { call!(GrB_Vector_nvals(&mut entries, self.0))? };
        Ok(entries)
    }

    pub fn size(&self) -> Result<u64, Error> {
        let mut size = 0;
        unsafe { call!(GrB_Vector_size(&mut size, self.0))? };
        Ok(size)
    }
}

impl Semiring {
    pub fn new(monoid: Monoid, op: Binary) -> Result<Self, Error> {
        start()?;
        let mut handle = null_mut();
        unsafe { call!(GrB_Semiring_new(&mut handle, monoid_handle(monoid), binary_op(op)))? };
        Ok(Semiring(handle))
    }
}

impl Descriptor {
    /// Of a sum of the flags; other bits are not looked at.
    pub fn new(flags: u32) -> Result<Self, Error> {
        start()?;
        let mut handle = null_mut();
        unsafe { call!(GrB_Descriptor_new(&mut handle))? };
        let descriptor = Descriptor(handle);
        let settings = [
            (REPLACE, c::OUTP, c::REPLACE),
            (COMPLEMENT, c::MASK, c::COMP),
            (STRUCTURAL, c::MASK, c::STRUCTURE),
            (TRANSPOSE_FIRST, c::INP0, c::TRAN),
            (TRANSPOSE_SECOND, c::INP1, c::TRAN),
        ];
        for (flag, field, value) in settings {
            if flags & flag != 0 {
                unsafe { call!(GrB_Descriptor_set(handle, field, value))? };
            }
        }
        Ok(descriptor)
    }
}
