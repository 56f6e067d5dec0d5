//! What is used of `GraphBLAS.h`, version 7.

#![allow(non_upper_case_globals)]

use std::ffi::c_int;
use std::marker::{PhantomData, PhantomPinned};

/// A struct that only the library looks into.
macro_rules! opaque {
    ($($name:ident)*) => {
        $(
            #[repr(C)]
            pub struct $name {
                _data: [u8; 0],
                _marker: PhantomData<(*mut u8, PhantomPinned)>,
            }
        )*
    };
}

opaque!(TypeData UnaryData BinaryData IndexUnaryData MonoidData SemiringData DescriptorData VectorData MatrixData);

pub type Type = *mut TypeData;
pub type UnaryOp = *mut UnaryData;
pub type BinaryOp = *mut BinaryData;
pub type IndexUnaryOp = *mut IndexUnaryData;
pub type Monoid = *mut MonoidData;
pub type Semiring = *mut SemiringData;
pub type Descriptor = *mut DescriptorData;
pub type Vector = *mut VectorData;
pub type Matrix = *mut MatrixData;

pub type Info = c_int;
pub type Index = u64;

// GrB_Mode.
pub const NONBLOCKING: c_int = 0;
// GxB_Option_Field.
pub const GLOBAL_NTHREADS: c_int = 5;
pub const LIBRARY_VERSION: c_int = 9;
pub const SPARSITY_CONTROL: c_int = 32;
// Values of GxB_SPARSITY_CONTROL.
pub const SPARSE: i32 = 2;
pub const BITMAP: i32 = 4;
// GrB_Desc_Field.
pub const OUTP: c_int = 0;
pub const MASK: c_int = 1;
pub const INP0: c_int = 2;
pub const INP1: c_int = 3;
// GrB_Desc_Value.
pub const REPLACE: c_int = 1;
pub const COMP: c_int = 2;
pub const TRAN: c_int = 3;
pub const STRUCTURE: c_int = 4;
// GrB_WaitMode.
pub const MATERIALIZE: c_int = 1;

extern "C" {
    pub static GrB_INT32: Type;

    pub static GrB_FIRST_INT32: BinaryOp;
    pub static GrB_SECOND_INT32: BinaryOp;
    pub static GrB_ONEB_INT32: BinaryOp;
    pub static GrB_PLUS_INT32: BinaryOp;
    pub static GrB_MINUS_INT32: BinaryOp;
    pub static GrB_TIMES_INT32: BinaryOp;
    pub static GrB_MIN_INT32: BinaryOp;
    pub static GrB_MAX_INT32: BinaryOp;

    pub static GrB_PLUS_MONOID_INT32: Monoid;
    pub static GrB_TIMES_MONOID_INT32: Monoid;
    pub static GrB_MIN_MONOID_INT32: Monoid;
    pub static GrB_MAX_MONOID_INT32: Monoid;

    pub static GrB_IDENTITY_INT32: UnaryOp;
    pub static GrB_AINV_INT32: UnaryOp;
    pub static GrB_ABS_INT32: UnaryOp;
    pub static GxB_LNOT_INT32: UnaryOp;
    pub static GxB_ONE_INT32: UnaryOp;

    pub static GrB_ROWINDEX_INT32: IndexUnaryOp;
    pub static GrB_COLINDEX_INT32: IndexUnaryOp;
    pub static GrB_DIAGINDEX_INT32: IndexUnaryOp;
    pub static GrB_VALUEEQ_INT32: IndexUnaryOp;
    pub static GrB_VALUENE_INT32: IndexUnaryOp;
    pub static GrB_VALUELT_INT32: IndexUnaryOp;
    pub static GrB_VALUELE_INT32: IndexUnaryOp;
    pub static GrB_VALUEGT_INT32: IndexUnaryOp;
    pub static GrB_VALUEGE_INT32: IndexUnaryOp;
    pub static GrB_TRIL: IndexUnaryOp;
    pub static GrB_TRIU: IndexUnaryOp;

    pub fn GrB_init(mode: c_int) -> Info;
    pub fn GxB_Global_Option_set_INT32(field: c_int, value: i32) -> Info;
    pub fn GxB_Global_Option_get_INT32(field: c_int, value: *mut i32) -> Info;

    pub fn GrB_Descriptor_new(descriptor: *mut Descriptor) -> Info;
    pub fn GrB_Descriptor_set(descriptor: Descriptor, field: c_int, value: c_int) -> Info;
    pub fn GrB_Descriptor_free(descriptor: *mut Descriptor) -> Info;

    pub fn GrB_Semiring_new(semiring: *mut Semiring, add: Monoid, multiply: BinaryOp) -> Info;
    pub fn GrB_Semiring_free(semiring: *mut Semiring) -> Info;

    pub fn GrB_Matrix_new(a: *mut Matrix, kind: Type, rows: Index, cols: Index) -> Info;
    pub fn GrB_Matrix_dup(c: *mut Matrix, a: Matrix) -> Info;
    pub fn GrB_Matrix_free(a: *mut Matrix) -> Info;
    pub fn GxB_Matrix_Option_set_INT32(a: Matrix, field: c_int, value: i32) -> Info;
    pub fn GrB_Matrix_wait(a: Matrix, mode: c_int) -> Info;
    pub fn GrB_Matrix_nrows(rows: *mut Index, a: Matrix) -> Info;
    pub fn GrB_Matrix_ncols(cols: *mut Index, a: Matrix) -> Info;
    pub fn GrB_Matrix_nvals(entries: *mut Index, a: Matrix) -> Info;
    pub fn GrB_Matrix_build_INT32(
        c: Matrix,
        rows: *const Index,
        cols: *const Index,
        values: *const i32,
        entries: Index,
        duplicates: BinaryOp,
    ) -> Info;
    pub fn GrB_Matrix_extractTuples_INT32(
        rows: *mut Index,
        cols: *mut Index,
        values: *mut i32,
        entries: *mut Index,
        a: Matrix,
    ) -> Info;

    pub fn GrB_Vector_new(v: *mut Vector, kind: Type, size: Index) -> Info;
    pub fn GrB_Vector_dup(w: *mut Vector, u: Vector) -> Info;
    pub fn GrB_Vector_free(v: *mut Vector) -> Info;
    pub fn GxB_Vector_Option_set_INT32(v: Vector, field: c_int, value: i32) -> Info;
    pub fn GrB_Vector_wait(v: Vector, mode: c_int) -> Info;
    pub fn GrB_Vector_size(size: *mut Index, v: Vector) -> Info;
    pub fn GrB_Vector_nvals(entries: *mut Index, v: Vector) -> Info;
    pub fn GrB_Vector_build_INT32(
        w: Vector,
        indexes: *const Index,
        values: *const i32,
        entries: Index,
        duplicates: BinaryOp,
    ) -> Info;
    pub fn GrB_Vector_extractTuples_INT32(
        indexes: *mut Index,
        values: *mut i32,
        entries: *mut Index,
        v: Vector,
    ) -> Info;

    pub fn GrB_mxm(
        c: Matrix,
        mask: Matrix,
        accumulator: BinaryOp,
        semiring: Semiring,
        a: Matrix,
        b: Matrix,
        descriptor: Descriptor,
    ) -> Info;
    pub fn GrB_vxm(
        w: Vector,
        mask: Vector,
        accumulator: BinaryOp,
        semiring: Semiring,
        u: Vector,
        a: Matrix,
        descriptor: Descriptor,
    ) -> Info;
    pub fn GrB_Matrix_eWiseMult_BinaryOp(
        c: Matrix,
        mask: Matrix,
        accumulator: BinaryOp,
        op: BinaryOp,
        a: Matrix,
        b: Matrix,
        descriptor: Descriptor,
    ) -> Info;
    pub fn GrB_Matrix_eWiseAdd_BinaryOp(
        c: Matrix,
        mask: Matrix,
        accumulator: BinaryOp,
        op: BinaryOp,
        a: Matrix,
        b: Matrix,
        descriptor: Descriptor,
    ) -> Info;
    pub fn GrB_Matrix_apply(
        c: Matrix,
        mask: Matrix,
        accumulator: BinaryOp,
        op: UnaryOp,
        a: Matrix,
        descriptor: Descriptor,
    ) -> Info;
    pub fn GrB_Matrix_apply_BinaryOp1st_INT32(
        c: Matrix,
        mask: Matrix,
        accumulator: BinaryOp,
        op: BinaryOp,
        scalar: i32,
        a: Matrix,
        descriptor: Descriptor,
    ) -> Info;
    pub fn GrB_Matrix_apply_BinaryOp2nd_INT32(
        c: Matrix,
        mask: Matrix,
        accumulator: BinaryOp,
        op: BinaryOp,
        a: Matrix,
        scalar: i32,
        descriptor: Descriptor,
    ) -> Info;
    pub fn GrB_Matrix_apply_IndexOp_INT32(
        c: Matrix,
        mask: Matrix,
        accumulator: BinaryOp,
        op: IndexUnaryOp,
        a: Matrix,
        scalar: i32,
        descriptor: Descriptor,
    ) -> Info;
    pub fn GrB_Vector_apply_IndexOp_INT32(
        w: Vector,
        mask: Vector,
        accumulator: BinaryOp,
        op: IndexUnaryOp,
        u: Vector,
        scalar: i32,
        descriptor: Descriptor,
    ) -> Info;
    pub fn GrB_Matrix_extract(
        c: Matrix,
        mask: Matrix,
        accumulator: BinaryOp,
        a: Matrix,
        rows: *const Index,
        row_count: Index,
        cols: *const Index,
        col_count: Index,
        descriptor: Descriptor,
    ) -> Info;
    pub fn GrB_Matrix_assign(
        c: Matrix,
        mask: Matrix,
        accumulator: BinaryOp,
        a: Matrix,
        rows: *const Index,
        row_count: Index,
        cols: *const Index,
        col_count: Index,
        descriptor: Descriptor,
    ) -> Info;
    pub fn GrB_Matrix_kronecker_BinaryOp(
        c: Matrix,
        mask: Matrix,
        accumulator: BinaryOp,
        op: BinaryOp,
        a: Matrix,
        b: Matrix,
        descriptor: Descriptor,
    ) -> Info;
    pub fn GrB_Matrix_select_INT32(
        c: Matrix,
        mask: Matrix,
        accumulator: BinaryOp,
        op: IndexUnaryOp,
        a: Matrix,
        scalar: i32,
        descriptor: Descriptor,
    ) -> Info;
    pub fn GrB_Matrix_reduce_Monoid(
        w: Vector,
        mask: Vector,
        accumulator: BinaryOp,
        monoid: Monoid,
        a: Matrix,
        descriptor: Descriptor,
    ) -> Info;
    pub fn GrB_Matrix_reduce_INT32(
        number: *mut i32,
        accumulator: BinaryOp,
        monoid: Monoid,
        a: Matrix,
        descriptor: Descriptor,
    ) -> Info;
}
