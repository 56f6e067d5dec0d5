//! The library's calls as `include/ostrubel.h` has them, on slices, with answers as numbers.
//!
//! This is the only unsafe code. What the header asks of a caller is given by the types: a slice's pointer is aligned,
//! not null and to as many words as it says, and a buffer that is written overlaps no other, since it is borrowed
//! mutably. Any numbers and any words may be passed.

mod c {
    unsafe extern "C" {
        pub fn ostrubel_check(words: *const u32, n: usize) -> u64;
        pub fn ostrubel_new_empty(rows: u32, cols: u32, buffer: *mut u32, n: usize) -> u64;
        pub fn ostrubel_read_cell(i: u32, j: u32, words: *const u32, n: usize) -> u64;
        pub fn ostrubel_reduce(monoid: u32, words: *const u32, n: usize) -> u64;
        pub fn ostrubel_revision(words: *const u32, n: usize) -> u64;
        pub fn ostrubel_row_view(
            i: u32,
            values: u32,
            first: *const u32,
            first_n: usize,
            second: *const u32,
            second_n: usize,
        ) -> u64;
        pub fn ostrubel_store_new_empty(slot: usize, rows: u32, cols: u32, store: *mut u32, n: usize) -> u64;
        pub fn ostrubel_store_drop(slot: usize, store: *mut u32, n: usize) -> u64;
        pub fn ostrubel_store_set_cell(slot: usize, i: u32, j: u32, value: u32, store: *mut u32, n: usize) -> u64;
        pub fn ostrubel_store_clear_cell(slot: usize, i: u32, j: u32, store: *mut u32, n: usize) -> u64;
        pub fn ostrubel_store_read_cell(slot: usize, i: u32, j: u32, store: *const u32, n: usize) -> u64;
        pub fn ostrubel_read_file(bytes: *const u8, bytes_n: usize, words: *mut u32, n: usize) -> u64;
        pub fn ostrubel_write_file(words: *const u32, n: usize, bytes: *mut u8, bytes_n: usize) -> u64;
        pub fn ostrubel_write_text(words: *const u32, n: usize, bytes: *mut u8, bytes_n: usize) -> u64;
        pub fn ostrubel_store_reduce(slot: usize, monoid: u32, store: *const u32, n: usize) -> u64;
        pub fn ostrubel_store_formula(
            target: usize,
            monoid: u32,
            op: u32,
            text: *const u8,
            text_n: usize,
            store: *mut u32,
            n: usize,
            stack: *mut u32,
            stack_n: usize,
        ) -> u64;
    }
}

/// The options of an operation, as numbers. The fields are those of the header.
#[derive(Clone, Copy, Debug, Default, PartialEq, Eq)]
pub struct OptionNumbers {
    /// A sum of flags.
    pub flags: u32,
    /// 0: no mask. Any other number: there is one.
    pub has_mask: u32,
    /// 0: no accumulator. Any other number: there is one.
    pub has_accumulator: u32,
    /// A binary operator, not looked at where there is no accumulator.
    pub accumulator: u32,
}

/// Whether the words begin with a valid matrix.
pub fn check(words: &[u32]) -> u64 {
    unsafe { c::ostrubel_check(words.as_ptr(), words.len()) }
}

/// An empty matrix at the front of the buffer.
pub fn new_empty(rows: u32, cols: u32, buffer: &mut [u32]) -> u64 {
    unsafe { c::ostrubel_new_empty(rows, cols, buffer.as_mut_ptr(), buffer.len()) }
}

/// The cell at row i and column j.
pub fn read_cell(i: u32, j: u32, words: &[u32]) -> u64 {
    unsafe { c::ostrubel_read_cell(i, j, words.as_ptr(), words.len()) }
}

/// All values of the matrix added up with a monoid.
pub fn reduce(monoid: u32, words: &[u32]) -> u64 {
    unsafe { c::ostrubel_reduce(monoid, words.as_ptr(), words.len()) }
}

/// The revision of the matrix.
pub fn revision(words: &[u32]) -> u64 {
    unsafe { c::ostrubel_revision(words.as_ptr(), words.len()) }
}

/// Where row i over two matrices lies: its column numbers where `values` is 0, else its values. The answer has no code:
/// bit 0 says that the part lies in the second matrix, the upper word at which of its words it begins, and bits 8 to 31
/// how many words it has.
pub fn row_view(i: u32, values: u32, first: &[u32], second: &[u32]) -> u64 {
    unsafe { c::ostrubel_row_view(i, values, first.as_ptr(), first.len(), second.as_ptr(), second.len()) }
}

/// An empty matrix in a slot.
pub fn store_new_empty(slot: usize, rows: u32, cols: u32, store: &mut [u32]) -> u64 {
    unsafe { c::ostrubel_store_new_empty(slot, rows, cols, store.as_mut_ptr(), store.len()) }
}

/// A slot becomes empty.
pub fn store_drop(slot: usize, store: &mut [u32]) -> u64 {
    unsafe { c::ostrubel_store_drop(slot, store.as_mut_ptr(), store.len()) }
}

/// The cell at row i and column j takes a value.
pub fn store_set_cell(slot: usize, i: u32, j: u32, value: u32, store: &mut [u32]) -> u64 {
    unsafe { c::ostrubel_store_set_cell(slot, i, j, value, store.as_mut_ptr(), store.len()) }
}

/// The cell at row i and column j becomes absent.
pub fn store_clear_cell(slot: usize, i: u32, j: u32, store: &mut [u32]) -> u64 {
    unsafe { c::ostrubel_store_clear_cell(slot, i, j, store.as_mut_ptr(), store.len()) }
}

/// The cell at row i and column j of a slot's matrix.
pub fn store_read_cell(slot: usize, i: u32, j: u32, store: &[u32]) -> u64 {
    unsafe { c::ostrubel_store_read_cell(slot, i, j, store.as_ptr(), store.len()) }
}

/// The matrix of a file at the front of the words.
pub fn read_file(bytes: &[u8], words: &mut [u32]) -> u64 {
    unsafe { c::ostrubel_read_file(bytes.as_ptr(), bytes.len(), words.as_mut_ptr(), words.len()) }
}

/// The file of a matrix at the front of the bytes.
pub fn write_file(words: &[u32], bytes: &mut [u8]) -> u64 {
    unsafe { c::ostrubel_write_file(words.as_ptr(), words.len(), bytes.as_mut_ptr(), bytes.len()) }
}

/// The text of a matrix at the front of the bytes. The upper word of the answer is how many bytes were written.
pub fn write_text(words: &[u32], bytes: &mut [u8]) -> u64 {
    unsafe { c::ostrubel_write_text(words.as_ptr(), words.len(), bytes.as_mut_ptr(), bytes.len()) }
}

/// All values of a slot's matrix added up with a monoid.
pub fn store_reduce(slot: usize, monoid: u32, store: &[u32]) -> u64 {
    unsafe { c::ostrubel_store_reduce(slot, monoid, store.as_ptr(), store.len()) }
}

/// The value of a formula over the slots, in the target's place.
pub fn store_formula(target: usize, monoid: u32, op: u32, text: &[u8], store: &mut [u32], stack: &mut [u32]) -> u64 {
    unsafe {
        c::ostrubel_store_formula(
            target,
            monoid,
            op,
            text.as_ptr(),
            text.len(),
            store.as_mut_ptr(),
            store.len(),
            stack.as_mut_ptr(),
            stack.len(),
        )
    }
}

/// An operation on lent matrices and on a store: the C functions and a safe function for each. In brackets: its
/// numbers, its inputs as slices, its inputs as slots, its index lists.
macro_rules! operation {
    (
        $(#[$about:meta])* $lent:ident $c_lent:ident $store:ident $c_store:ident,
        [$($number:ident),*], [$($input:ident $count:ident),*], [$($slot:ident),*], [$($list:ident $length:ident),*]
    ) => {
        unsafe extern "C" {
            fn $c_lent(
                flags: u32, has_mask: u32, has_accumulator: u32, accumulator: u32, $($number: u32,)*
                $($input: *const u32, $count: usize,)* $($list: *const u32, $length: usize,)*
                mask: *const u32, mask_n: usize, c: *mut u32, c_n: usize, work: *mut u32, work_n: usize,
            ) -> u64;
            fn $c_store(
                flags: u32, has_mask: u32, has_accumulator: u32, accumulator: u32, $($number: u32,)*
                $($slot: usize,)* mask: usize, c: usize, store: *mut u32, store_n: usize,
                $($list: *const u32, $length: usize,)* work: *mut u32, work_n: usize,
            ) -> u64;
        }

        $(#[$about])*
        ///
        /// On lent matrices.
        #[allow(clippy::too_many_arguments)]
        pub fn $lent(
            options: OptionNumbers, $($number: u32,)* $($input: &[u32],)* $($list: &[u32],)*
            mask: &[u32], c: &mut [u32], work: &mut [u32],
        ) -> u64 {
            let OptionNumbers { flags, has_mask, has_accumulator, accumulator } = options;
            unsafe {
                $c_lent(
                    flags, has_mask, has_accumulator, accumulator, $($number,)*
                    $($input.as_ptr(), $input.len(),)* $($list.as_ptr(), $list.len(),)*
                    mask.as_ptr(), mask.len(), c.as_mut_ptr(), c.len(), work.as_mut_ptr(), work.len(),
                )
            }
        }

        $(#[$about])*
        ///
        /// On the matrices in the slots of a store.
        #[allow(clippy::too_many_arguments)]
        pub fn $store(
            options: OptionNumbers, $($number: u32,)* $($slot: usize,)* mask: usize, c: usize, store: &mut [u32],
            $($list: &[u32],)* work: &mut [u32],
        ) -> u64 {
            let OptionNumbers { flags, has_mask, has_accumulator, accumulator } = options;
            unsafe {
                $c_store(
                    flags, has_mask, has_accumulator, accumulator, $($number,)* $($slot,)* mask, c,
                    store.as_mut_ptr(), store.len(), $($list.as_ptr(), $list.len(),)* work.as_mut_ptr(), work.len(),
                )
            }
        }
    };
}

operation!(
    /// C gets A times B: op multiplies, the monoid adds up.
    mxm ostrubel_mxm store_mxm ostrubel_store_mxm, [monoid, op], [a a_n, b b_n], [a, b], []
);
operation!(
    /// C gets u times A, where u has one row.
    vxm ostrubel_vxm store_vxm ostrubel_store_vxm, [monoid, op], [u u_n, a a_n], [u, a], []
);

/// A product by the first of the library's two engines, on lent matrices: the C function and a safe function.
macro_rules! product_by_places {
    ($(#[$about:meta])* $lent:ident $c_lent:ident) => {
        unsafe extern "C" {
            fn $c_lent(
                flags: u32, has_mask: u32, has_accumulator: u32, accumulator: u32, monoid: u32, op: u32,
                a: *const u32, a_n: usize, b: *const u32, b_n: usize,
                mask: *const u32, mask_n: usize, c: *mut u32, c_n: usize, work: *mut u32, work_n: usize,
            ) -> u64;
        }

        $(#[$about])*
        #[allow(clippy::too_many_arguments)]
        pub fn $lent(
            options: OptionNumbers, monoid: u32, op: u32, a: &[u32], b: &[u32],
            mask: &[u32], c: &mut [u32], work: &mut [u32],
        ) -> u64 {
            let OptionNumbers { flags, has_mask, has_accumulator, accumulator } = options;
            unsafe {
                $c_lent(
                    flags, has_mask, has_accumulator, accumulator, monoid, op,
                    a.as_ptr(), a.len(), b.as_ptr(), b.len(),
                    mask.as_ptr(), mask.len(), c.as_mut_ptr(), c.len(), work.as_mut_ptr(), work.len(),
                )
            }
        }
    };
}

product_by_places!(
    /// `mxm` by the first engine of the product, for comparison: the same answers and words, in more time.
    mxm_by_places ostrubel_mxm_by_places
);
product_by_places!(
    /// `vxm` by the first engine, likewise.
    vxm_by_places ostrubel_vxm_by_places
);
operation!(
    /// Where both A and B have an entry: op of the two.
    ewise_mult ostrubel_ewise_mult store_ewise_mult ostrubel_store_ewise_mult, [op], [a a_n, b b_n], [a, b], []
);
operation!(
    /// Where both A and B have an entry: op of the two; where one has: its value.
    ewise_add ostrubel_ewise_add store_ewise_add ostrubel_store_ewise_add, [op], [a a_n, b b_n], [a, b], []
);
operation!(
    /// An operator of a kind, with a scalar, on every entry of A.
    apply ostrubel_apply store_apply ostrubel_store_apply, [kind, op, scalar], [a a_n], [a], []
);
operation!(
    /// At (i, j) the cell of A at row `is[i]` and column `js[j]`.
    extract ostrubel_extract store_extract ostrubel_store_extract, [], [a a_n], [a], [is is_n, js js_n]
);

unsafe extern "C" {
    fn ostrubel_open_doors(
        allowance: u32,
        locks: *const u32,
        locks_n: usize,
        cabinets: *const u32,
        cabinets_n: usize,
        hand: *const u32,
        hand_n: usize,
        out: *mut u32,
        out_n: usize,
        work: *mut u32,
        work_n: usize,
    ) -> u64;
}

/// The doors that open within an allowance of rounds, each with its first round, as a vector at the front of `out`.
pub fn open_doors(
    allowance: u32,
    locks: &[u32],
    cabinets: &[u32],
    hand: &[u32],
    out: &mut [u32],
    work: &mut [u32],
) -> u64 {
    unsafe {
        ostrubel_open_doors(
            allowance,
            locks.as_ptr(),
            locks.len(),
            cabinets.as_ptr(),
            cabinets.len(),
            hand.as_ptr(),
            hand.len(),
            out.as_mut_ptr(),
            out.len(),
            work.as_mut_ptr(),
            work.len(),
        )
    }
}

operation!(
    /// The entries of A for which a condition with a scalar holds.
    select ostrubel_select store_select ostrubel_store_select, [op, scalar], [a a_n], [a], []
);
operation!(
    /// In one row, at column j, the values of A's row j added up with the monoid.
    reduce_rows ostrubel_reduce_rows store_reduce_rows ostrubel_store_reduce_rows, [monoid], [a a_n], [a], []
);
operation!(
    /// At (`is[k]`, `js[l]`) of C the cell of A at row k and column l; elsewhere C keeps what it has.
    assign ostrubel_assign store_assign ostrubel_store_assign, [], [a a_n], [a], [is is_n, js js_n]
);
operation!(
    /// At (i p + k, j q + l) op of A's value at (i, j) and B's at (k, l), where B has p rows and q columns.
    kronecker ostrubel_kronecker store_kronecker ostrubel_store_kronecker, [op], [a a_n, b b_n], [a, b], []
);

unsafe extern "C" {
    fn ostrubel_day_rewrite(
        i: u32,
        row: *const u32,
        row_n: usize,
        day: *mut u32,
        day_n: usize,
        marks: *mut u32,
        marks_n: usize,
    ) -> u64;
    fn ostrubel_day_back(i: u32, day: *mut u32, day_n: usize, marks: *mut u32, marks_n: usize) -> u64;
    fn ostrubel_day_read(
        i: u32,
        j: u32,
        base: *const u32,
        base_n: usize,
        day: *const u32,
        day_n: usize,
        marks: *const u32,
        marks_n: usize,
    ) -> u64;
    fn ostrubel_day_fold(
        base: *const u32,
        base_n: usize,
        day: *const u32,
        day_n: usize,
        marks: *const u32,
        marks_n: usize,
        out: *mut u32,
        out_n: usize,
    ) -> u64;
    fn ostrubel_day_show(
        i: u32,
        values: u32,
        base: *const u32,
        base_n: usize,
        day: *const u32,
        day_n: usize,
        marks: *const u32,
        marks_n: usize,
    ) -> u64;
}

/// Row i of the day matrix becomes `row`, and is marked with 1.
pub fn day_rewrite(i: u32, row: &[u32], day: &mut [u32], marks: &mut [u32]) -> u64 {
    let (day_words, mark_words) = (day.as_mut_ptr(), marks.as_mut_ptr());
    unsafe { ostrubel_day_rewrite(i, row.as_ptr(), row.len(), day_words, day.len(), mark_words, marks.len()) }
}

/// Row i of the day matrix becomes empty, and its mark goes, if there is one.
pub fn day_back(i: u32, day: &mut [u32], marks: &mut [u32]) -> u64 {
    unsafe { ostrubel_day_back(i, day.as_mut_ptr(), day.len(), marks.as_mut_ptr(), marks.len()) }
}

/// The cell at row i and column j, of the day matrix where the row is marked, else of the base matrix.
pub fn day_read(i: u32, j: u32, base: &[u32], day: &[u32], marks: &[u32]) -> u64 {
    let (base, base_n) = (base.as_ptr(), base.len());
    unsafe { ostrubel_day_read(i, j, base, base_n, day.as_ptr(), day.len(), marks.as_ptr(), marks.len()) }
}

/// Both as one new matrix at the front of `out`.
pub fn day_fold(base: &[u32], day: &[u32], marks: &[u32], out: &mut [u32]) -> u64 {
    let ((base, base_n), (day, day_n)) = ((base.as_ptr(), base.len()), (day.as_ptr(), day.len()));
    unsafe { ostrubel_day_fold(base, base_n, day, day_n, marks.as_ptr(), marks.len(), out.as_mut_ptr(), out.len()) }
}

/// Where row i lies as it is shown, as [`row_view`] says it; the second matrix is the day matrix.
pub fn day_show(i: u32, values: u32, base: &[u32], day: &[u32], marks: &[u32]) -> u64 {
    let (base, base_n) = (base.as_ptr(), base.len());
    unsafe { ostrubel_day_show(i, values, base, base_n, day.as_ptr(), day.len(), marks.as_ptr(), marks.len()) }
}
