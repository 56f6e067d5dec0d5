//! The operations on a store.

use crate::calls::{self, OptionNumbers};
use crate::{ApplyOp, BinaryOp, Error, Monoid, Options, SelectOp, Semiring, Store};

/// # Operations
///
/// Those of [`Matrix`](crate::Matrix), by slots: `c` is the slot of the output, and each answers the number of entries
/// of the final C. One slot may have several roles: all are read before C is written. C has to have a matrix of the
/// result's shape. A refused operation leaves the store as it was.
impl Store {
    /// C gets A times B. There is an entry at (i, j) where some k has both A(i, k) and B(k, j).
    ///
    /// # Errors
    ///
    /// `InvalidStore` for a slot above 7; `EmptySlot`; those of [`Matrix::mxm`](crate::Matrix::mxm);
    /// `InsufficientSpace` where the final C does not fit the store.
    pub fn mxm(
        &mut self,
        c: usize,
        semiring: Semiring,
        a: usize,
        b: usize,
        options: &Options<usize>,
    ) -> Result<usize, Error> {
        let (monoid, op) = semiring.numbers();
        self.operate(options, |numbers, mask, store, work| {
            calls::store_mxm(numbers, monoid, op, a, b, mask, c, store, work)
        })
    }

    /// C gets u times A, where u has one row.
    ///
    /// # Errors
    ///
    /// `InvalidStore` for a slot above 7; `EmptySlot`; those of [`Matrix::vxm`](crate::Matrix::vxm);
    /// `InsufficientSpace` where the final C does not fit the store.
    pub fn vxm(
        &mut self,
        c: usize,
        semiring: Semiring,
        u: usize,
        a: usize,
        options: &Options<usize>,
    ) -> Result<usize, Error> {
        let (monoid, op) = semiring.numbers();
        self.operate(options, |numbers, mask, store, work| {
            calls::store_vxm(numbers, monoid, op, u, a, mask, c, store, work)
        })
    }

    /// The intersection: where both A and B have an entry, op of the two.
    ///
    /// # Errors
    ///
    /// `InvalidStore` for a slot above 7; `EmptySlot`; those of [`Matrix::ewise_mult`](crate::Matrix::ewise_mult);
    /// `InsufficientSpace` where the final C does not fit the store.
    pub fn ewise_mult(
        &mut self,
        c: usize,
        op: BinaryOp,
        a: usize,
        b: usize,
        options: &Options<usize>,
    ) -> Result<usize, Error> {
        self.operate(options, |numbers, mask, store, work| {
            calls::store_ewise_mult(numbers, op.number(), a, b, mask, c, store, work)
        })
    }

    /// The union: where both A and B have an entry, op of the two; where one has, its value as it is.
    ///
    /// # Errors
    ///
    /// `InvalidStore` for a slot above 7; `EmptySlot`; those of [`Matrix::ewise_add`](crate::Matrix::ewise_add);
    /// `InsufficientSpace` where the final C does not fit the store.
    pub fn ewise_add(
        &mut self,
        c: usize,
        op: BinaryOp,
        a: usize,
        b: usize,
        options: &Options<usize>,
    ) -> Result<usize, Error> {
        self.operate(options, |numbers, mask, store, work| {
            calls::store_ewise_add(numbers, op.number(), a, b, mask, c, store, work)
        })
    }

    /// An operator on every entry of A.
    ///
    /// # Errors
    ///
    /// `InvalidStore` for a slot above 7; `EmptySlot`; those of [`Matrix::apply`](crate::Matrix::apply);
    /// `InsufficientSpace` where the final C does not fit the store.
    pub fn apply(&mut self, c: usize, op: ApplyOp, a: usize, options: &Options<usize>) -> Result<usize, Error> {
        let [kind, op, scalar] = op.numbers();
        self.operate(options, |numbers, mask, store, work| {
            calls::store_apply(numbers, kind, op, scalar, a, mask, c, store, work)
        })
    }

    /// At (i, j) the cell of A at row `rows[i]` and column `cols[j]`. The same index may stand in both lists.
    ///
    /// # Errors
    ///
    /// `InvalidStore` for a slot above 7; `EmptySlot`; those of [`Matrix::extract`](crate::Matrix::extract);
    /// `InsufficientSpace` where the final C does not fit the store.
    pub fn extract(
        &mut self,
        c: usize,
        a: usize,
        rows: &[u32],
        cols: &[u32],
        options: &Options<usize>,
    ) -> Result<usize, Error> {
        self.operate(options, |numbers, mask, store, work| {
            calls::store_extract(numbers, a, mask, c, store, rows, cols, work)
        })
    }

    /// The entries of A for which a condition holds, as they are.
    ///
    /// # Errors
    ///
    /// `InvalidStore` for a slot above 7; `EmptySlot`; those of [`Matrix::select`](crate::Matrix::select);
    /// `InsufficientSpace` where the final C does not fit the store.
    pub fn select(&mut self, c: usize, op: SelectOp, a: usize, options: &Options<usize>) -> Result<usize, Error> {
        let (op, scalar) = op.numbers();
        self.operate(options, |numbers, mask, store, work| {
            calls::store_select(numbers, op, scalar, a, mask, c, store, work)
        })
    }

    /// The values of each row of A added up with a monoid: C has one row, with a column for each row of A. Where a row has
    /// no entries there is none.
    ///
    /// # Errors
    ///
    /// `InvalidStore` for a slot above 7; `EmptySlot`; those of [`Matrix::reduce_rows`](crate::Matrix::reduce_rows);
    /// `InsufficientSpace` where the final C does not fit the store.
    pub fn reduce_rows(
        &mut self,
        c: usize,
        monoid: Monoid,
        a: usize,
        options: &Options<usize>,
    ) -> Result<usize, Error> {
        self.operate(options, |numbers, mask, store, work| {
            calls::store_reduce_rows(numbers, monoid.number(), a, mask, c, store, work)
        })
    }

    /// A written into C: at (`rows[k]`, `cols[l]`) the cell of A at row k and column l; the other cells stay. Where A is
    /// empty, so becomes the cell, but with an accumulator it keeps its value. The mask has C's shape and covers all of it.
    ///
    /// ```
    /// use ostrubel::{Error, Matrix, Options, Store};
    ///
    /// let mut store = Store::new(100)?;
    /// store.put(0, &Matrix::from_triples(2, 3, [(0, 2, 2), (1, 0, 10), (1, 1, 11), (1, 2, 12)])?)?;
    /// store.put(1, &Matrix::from_triples(1, 2, [(0, 0, 7)])?)?;
    /// assert_eq!(store.assign(0, 1, &[1], &[2, 0], &Options::new())?, 3);
    /// assert_eq!(store.matrix(0)?.to_triples(), [(0, 2, 2), (1, 1, 11), (1, 2, 7)]);
    /// assert_eq!(store.assign(0, 1, &[2], &[2, 0], &Options::new()), Err(Error::IndexOutOfBounds));
    /// # Ok::<(), Error>(())
    /// ```
    ///
    /// # Errors
    ///
    /// `InvalidStore` for a slot above 7; `EmptySlot`; those of [`Matrix::assign`](crate::Matrix::assign);
    /// `InsufficientSpace` where the final C does not fit the store.
    pub fn assign(
        &mut self,
        c: usize,
        a: usize,
        rows: &[u32],
        cols: &[u32],
        options: &Options<usize>,
    ) -> Result<usize, Error> {
        self.operate(options, |numbers, mask, store, work| {
            calls::store_assign(numbers, a, mask, c, store, rows, cols, work)
        })
    }

    /// The Kronecker product: at (i p + k, j q + l) op of A's value at (i, j) and B's at (k, l), where B has p rows and q
    /// columns.
    ///
    /// ```
    /// use ostrubel::{BinaryOp, Error, Matrix, Options, Store};
    ///
    /// let mut store = Store::new(100)?;
    /// store.put(0, &Matrix::from_triples(2, 1, [(1, 0, 9)])?)?;
    /// store.put(1, &Matrix::from_triples(1, 2, [(0, 0, 4), (0, 1, 2)])?)?;
    /// store.new_empty(2, 2, 2)?;
    /// assert_eq!(store.kronecker(2, BinaryOp::Minus, 0, 1, &Options::new())?, 2);
    /// assert_eq!(store.matrix(2)?.to_triples(), [(1, 0, 5), (1, 1, 7)]);
    /// assert_eq!(store.kronecker(0, BinaryOp::Minus, 0, 1, &Options::new()), Err(Error::InvalidShape));
    /// # Ok::<(), Error>(())
    /// ```
    ///
    /// # Errors
    ///
    /// `InvalidStore` for a slot above 7; `EmptySlot`; those of [`Matrix::kronecker`](crate::Matrix::kronecker);
    /// `InsufficientSpace` where the final C does not fit the store.
    pub fn kronecker(
        &mut self,
        c: usize,
        op: BinaryOp,
        a: usize,
        b: usize,
        options: &Options<usize>,
    ) -> Result<usize, Error> {
        self.operate(options, |numbers, mask, store, work| {
            calls::store_kronecker(numbers, op.number(), a, b, mask, c, store, work)
        })
    }

    /// Lends an operation its options, the mask's slot, the words of the store and a workspace. Where there is no mask,
    /// it gets a slot that the library does not look at.
    fn operate(
        &mut self,
        options: &Options<usize>,
        call: impl FnOnce(OptionNumbers, usize, &mut [u32], &mut [u32]) -> u64,
    ) -> Result<usize, Error> {
        let mask = options.mask.unwrap_or(0);
        self.write(|store, work| call(options.numbers(), mask, store, work))
    }
}
