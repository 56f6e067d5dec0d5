//! The operations on matrices.

use crate::calls::{self, OptionNumbers};
use crate::{ApplyOp, BinaryOp, Error, Matrix, Monoid, Options, SelectOp, Semiring};

/// # Operations
///
/// Each works out a result and writes it into `self`, the output C, by its [`Options`]. It answers the number of
/// entries of the final C. A refused operation leaves C as it was.
///
/// Inputs and mask may be one matrix. C cannot be among them: clone it, or keep it in a [`Store`](crate::Store), where
/// one slot may have several roles.
impl Matrix {
    /// C gets A times B. There is an entry at (i, j) where some k has both A(i, k) and B(k, j).
    ///
    /// ```
    /// use ostrubel::{BinaryOp, Error, Matrix, Monoid, Options, Semiring};
    ///
    /// let a = Matrix::from_triples(2, 2, [(0, 0, 1), (0, 1, 2), (1, 1, 3)])?;
    /// let b = Matrix::from_triples(2, 2, [(0, 0, 4), (1, 0, 5)])?;
    /// let mut c = Matrix::new(2, 2)?;
    /// assert_eq!(c.mxm(Semiring::new(Monoid::Plus, BinaryOp::Times), &a, &b, &Options::new())?, 2);
    /// assert_eq!(c.to_triples(), [(0, 0, 14), (1, 0, 15)]);
    /// # Ok::<(), Error>(())
    /// ```
    ///
    /// # Errors
    ///
    /// `InvalidShape` where A has not as many columns as B rows, or C or the mask not as many rows as A and columns
    /// as B, the inputs as transposed; `TooManyEntries` where C would have over [`MAX_ENTRIES`](crate::MAX_ENTRIES)
    /// entries.
    pub fn mxm(
        &mut self,
        semiring: Semiring,
        a: &Matrix,
        b: &Matrix,
        options: &Options<&Matrix>,
    ) -> Result<usize, Error> {
        let (monoid, op) = semiring.numbers();
        self.operate(options, |numbers, mask, c, work| {
            calls::mxm(numbers, monoid, op, a.words(), b.words(), mask, c, work)
        })
    }

    /// C gets u times A, where u has one row.
    ///
    /// ```
    /// use ostrubel::{BinaryOp, Error, Matrix, Monoid, Options, Semiring};
    ///
    /// let u = Matrix::from_triples(1, 2, [(0, 0, 10), (0, 1, 20)])?;
    /// let a = Matrix::from_triples(2, 3, [(0, 2, 7), (1, 0, 5), (1, 2, 1)])?;
    /// let mut c = Matrix::new(1, 3)?;
    /// c.vxm(Semiring::new(Monoid::Min, BinaryOp::Plus), &u, &a, &Options::new())?;
    /// assert_eq!(c.to_triples(), [(0, 0, 25), (0, 2, 17)]);
    /// # Ok::<(), Error>(())
    /// ```
    ///
    /// # Errors
    ///
    /// `InvalidShape` where u has more than one row or not as many columns as A rows, or C or the mask is not one row
    /// of as many columns as A, A as transposed; `TooManyEntries` where C would have over
    /// [`MAX_ENTRIES`](crate::MAX_ENTRIES) entries.
    pub fn vxm(
        &mut self,
        semiring: Semiring,
        u: &Matrix,
        a: &Matrix,
        options: &Options<&Matrix>,
    ) -> Result<usize, Error> {
        let (monoid, op) = semiring.numbers();
        self.operate(options, |numbers, mask, c, work| {
            calls::vxm(numbers, monoid, op, u.words(), a.words(), mask, c, work)
        })
    }

    /// The intersection: where both A and B have an entry, op of the two.
    ///
    /// ```
    /// use ostrubel::{BinaryOp, Error, Matrix, Options};
    ///
    /// let a = Matrix::from_triples(1, 3, [(0, 0, 2), (0, 1, 3)])?;
    /// let b = Matrix::from_triples(1, 3, [(0, 1, 5), (0, 2, 7)])?;
    /// let mut c = Matrix::new(1, 3)?;
    /// c.ewise_mult(BinaryOp::Times, &a, &b, &Options::new())?;
    /// assert_eq!(c.to_triples(), [(0, 1, 15)]);
    /// # Ok::<(), Error>(())
    /// ```
    ///
    /// # Errors
    ///
    /// `InvalidShape` where A, B, C and the mask are not of one shape, the inputs as transposed; `TooManyEntries`
    /// where C would have over [`MAX_ENTRIES`](crate::MAX_ENTRIES) entries.
    pub fn ewise_mult(
        &mut self,
        op: BinaryOp,
        a: &Matrix,
        b: &Matrix,
        options: &Options<&Matrix>,
    ) -> Result<usize, Error> {
        self.operate(options, |numbers, mask, c, work| {
            calls::ewise_mult(numbers, op.number(), a.words(), b.words(), mask, c, work)
        })
    }

    /// The union: where both A and B have an entry, op of the two; where one has, its value as it is.
    ///
    /// ```
    /// use ostrubel::{BinaryOp, Error, Matrix, Options};
    ///
    /// let a = Matrix::from_triples(1, 3, [(0, 0, 2), (0, 1, 3)])?;
    /// let b = Matrix::from_triples(1, 3, [(0, 1, 5), (0, 2, 7)])?;
    /// let mut c = Matrix::new(1, 3)?;
    /// c.ewise_add(BinaryOp::Minus, &a, &b, &Options::new())?;
    /// assert_eq!(c.to_triples(), [(0, 0, 2), (0, 1, -2), (0, 2, 7)]);
    /// # Ok::<(), Error>(())
    /// ```
    ///
    /// # Errors
    ///
    /// `InvalidShape` where A, B, C and the mask are not of one shape, the inputs as transposed; `TooManyEntries`
    /// where C would have over [`MAX_ENTRIES`](crate::MAX_ENTRIES) entries.
    pub fn ewise_add(
        &mut self,
        op: BinaryOp,
        a: &Matrix,
        b: &Matrix,
        options: &Options<&Matrix>,
    ) -> Result<usize, Error> {
        self.operate(options, |numbers, mask, c, work| {
            calls::ewise_add(numbers, op.number(), a.words(), b.words(), mask, c, work)
        })
    }

    /// An operator on every entry of A.
    ///
    /// ```
    /// use ostrubel::{ApplyOp, BinaryOp, Error, Matrix, Options};
    ///
    /// let a = Matrix::from_triples(1, 4, [(0, 0, 10), (0, 1, 20), (0, 3, 40)])?;
    /// let mut c = Matrix::new(1, 4)?;
    /// c.apply(ApplyOp::ScalarSecond(BinaryOp::Minus, 15), &a, &Options::new())?;
    /// assert_eq!(c.to_triples(), [(0, 0, -5), (0, 1, 5), (0, 3, 25)]);
    /// # Ok::<(), Error>(())
    /// ```
    ///
    /// # Errors
    ///
    /// `InvalidShape` where A, C and the mask are not of one shape, A as transposed; `TooManyEntries` where C would
    /// have over [`MAX_ENTRIES`](crate::MAX_ENTRIES) entries.
    pub fn apply(&mut self, op: ApplyOp, a: &Matrix, options: &Options<&Matrix>) -> Result<usize, Error> {
        let [kind, op, scalar] = op.numbers();
        self.operate(options, |numbers, mask, c, work| {
            calls::apply(numbers, kind, op, scalar, a.words(), mask, c, work)
        })
    }

    /// At (i, j) the cell of A at row `rows[i]` and column `cols[j]`. The same index may stand in both lists.
    ///
    /// ```
    /// use ostrubel::{Error, Matrix, Options};
    ///
    /// let a = Matrix::from_triples(3, 2, [(0, 0, 1), (1, 1, 2), (2, 0, 3)])?;
    /// let mut c = Matrix::new(2, 2)?;
    /// c.extract(&a, &[2, 1], &[1, 0], &Options::new())?;
    /// assert_eq!(c.to_triples(), [(0, 1, 3), (1, 0, 2)]);
    /// assert_eq!(c.extract(&a, &[2, 2], &[1, 0], &Options::new()), Err(Error::IndexOutOfBounds));
    /// # Ok::<(), Error>(())
    /// ```
    ///
    /// # Errors
    ///
    /// `IndexOutOfBounds` where a list is empty, has over [`MAX_INDEXES`](crate::MAX_INDEXES) indexes or has one of
    /// them twice, or an index is outside A, as transposed; `InvalidShape` where C or the mask has not as many rows
    /// and columns as the lists have indexes; `TooManyEntries` where C would have over
    /// [`MAX_ENTRIES`](crate::MAX_ENTRIES) entries.
    pub fn extract(
        &mut self,
        a: &Matrix,
        rows: &[u32],
        cols: &[u32],
        options: &Options<&Matrix>,
    ) -> Result<usize, Error> {
        self.operate(options, |numbers, mask, c, work| calls::extract(numbers, a.words(), rows, cols, mask, c, work))
    }

    /// The entries of A for which a condition holds, as they are.
    ///
    /// ```
    /// use ostrubel::{Error, Matrix, Options, SelectOp};
    ///
    /// let a = Matrix::from_triples(2, 2, [(0, 0, -5), (0, 1, 7), (1, 0, 0), (1, 1, 3)])?;
    /// let mut c = Matrix::new(2, 2)?;
    /// c.select(SelectOp::AtLeast(3), &a, &Options::new())?;
    /// assert_eq!(c.to_triples(), [(0, 1, 7), (1, 1, 3)]);
    /// c.select(SelectOp::LowerTriangle(-1), &a, &Options::new())?;
    /// assert_eq!(c.to_triples(), [(1, 0, 0)]);
    /// # Ok::<(), Error>(())
    /// ```
    ///
    /// # Errors
    ///
    /// `InvalidShape` where A, C and the mask are not of one shape, A as transposed; `TooManyEntries` where C would
    /// have over [`MAX_ENTRIES`](crate::MAX_ENTRIES) entries.
    pub fn select(&mut self, op: SelectOp, a: &Matrix, options: &Options<&Matrix>) -> Result<usize, Error> {
        let (op, scalar) = op.numbers();
        self.operate(options, |numbers, mask, c, work| calls::select(numbers, op, scalar, a.words(), mask, c, work))
    }

    /// The values of each row of A added up with a monoid: C has one row, with a column for each row of A. Where a row has
    /// no entries there is none.
    ///
    /// ```
    /// use ostrubel::{Error, Matrix, Monoid, Options};
    ///
    /// let a = Matrix::from_triples(3, 2, [(0, 0, 5), (0, 1, -5), (2, 1, 7)])?;
    /// let mut rows = Matrix::new(1, 3)?;
    /// rows.reduce_rows(Monoid::Plus, &a, &Options::new())?;
    /// assert_eq!(rows.to_triples(), [(0, 0, 0), (0, 2, 7)]);
    /// let mut cols = Matrix::new(1, 2)?;
    /// cols.reduce_rows(Monoid::Max, &a, &Options::new().transpose_first())?;
    /// assert_eq!(cols.to_triples(), [(0, 0, 5), (0, 1, 7)]);
    /// # Ok::<(), Error>(())
    /// ```
    ///
    /// # Errors
    ///
    /// `InvalidShape` where C or the mask is not one row of as many columns as A has rows, A as transposed;
    /// `TooManyEntries` where C would have over [`MAX_ENTRIES`](crate::MAX_ENTRIES) entries.
    pub fn reduce_rows(&mut self, monoid: Monoid, a: &Matrix, options: &Options<&Matrix>) -> Result<usize, Error> {
        self.operate(options, |numbers, mask, c, work| {
            calls::reduce_rows(numbers, monoid.number(), a.words(), mask, c, work)
        })
    }

    /// A written into C: at (`rows[k]`, `cols[l]`) the cell of A at row k and column l; the other cells stay. Where A is
    /// empty, so becomes the cell, but with an accumulator it keeps its value. The mask has C's shape and covers all of it.
    ///
    /// ```
    /// use ostrubel::{Error, Matrix, Options};
    ///
    /// let mut c = Matrix::from_triples(2, 3, [(0, 2, 2), (1, 0, 10), (1, 1, 11), (1, 2, 12)])?;
    /// let a = Matrix::from_triples(1, 2, [(0, 0, 7)])?;
    /// c.assign(&a, &[1], &[2, 0], &Options::new())?;
    /// assert_eq!(c.to_triples(), [(0, 2, 2), (1, 1, 11), (1, 2, 7)]);
    /// let mut back = Matrix::new(1, 2)?;
    /// back.extract(&c, &[1], &[2, 0], &Options::new())?;
    /// assert_eq!(back.to_triples(), a.to_triples());
    /// # Ok::<(), Error>(())
    /// ```
    ///
    /// # Errors
    ///
    /// `IndexOutOfBounds` where a list is empty, has over [`MAX_INDEXES`](crate::MAX_INDEXES) indexes or has one of them
    /// twice, or an index is outside C; `InvalidShape` where A has not as many rows and columns as the lists have indexes,
    /// A as transposed, or the mask has not C's shape; `TooManyEntries` where C would have over
    /// [`MAX_ENTRIES`](crate::MAX_ENTRIES) entries.
    pub fn assign(
        &mut self,
        a: &Matrix,
        rows: &[u32],
        cols: &[u32],
        options: &Options<&Matrix>,
    ) -> Result<usize, Error> {
        self.operate(options, |numbers, mask, c, work| calls::assign(numbers, a.words(), rows, cols, mask, c, work))
    }

    /// The Kronecker product: at (i p + k, j q + l) op of A's value at (i, j) and B's at (k, l), where B has p rows and q
    /// columns.
    ///
    /// ```
    /// use ostrubel::{BinaryOp, Error, Matrix, Options};
    ///
    /// let a = Matrix::from_triples(2, 1, [(1, 0, 9)])?;
    /// let b = Matrix::from_triples(1, 2, [(0, 0, 4), (0, 1, 2)])?;
    /// let mut c = Matrix::new(2, 2)?;
    /// c.kronecker(BinaryOp::Minus, &a, &b, &Options::new())?;
    /// assert_eq!(c.to_triples(), [(1, 0, 5), (1, 1, 7)]);
    /// # Ok::<(), Error>(())
    /// ```
    ///
    /// # Errors
    ///
    /// `InvalidShape` where C or the mask has not the rows of A times those of B, and as many columns likewise, the inputs
    /// as transposed, so also where these are more than a matrix may have; `TooManyEntries` where C would have over
    /// [`MAX_ENTRIES`](crate::MAX_ENTRIES) entries.
    pub fn kronecker(
        &mut self,
        op: BinaryOp,
        a: &Matrix,
        b: &Matrix,
        options: &Options<&Matrix>,
    ) -> Result<usize, Error> {
        self.operate(options, |numbers, mask, c, work| {
            calls::kronecker(numbers, op.number(), a.words(), b.words(), mask, c, work)
        })
    }

    /// Lends an operation its options, the mask's words, those of C and a workspace. Where there is no mask, it gets a
    /// word that the library does not look at.
    fn operate(
        &mut self,
        options: &Options<&Matrix>,
        call: impl FnOnce(OptionNumbers, &[u32], &mut [u32], &mut [u32]) -> u64,
    ) -> Result<usize, Error> {
        let mask = options.mask.map_or(&[0][..], Matrix::words);
        self.write(|c, work| call(options.numbers(), mask, c, work))
    }
}
