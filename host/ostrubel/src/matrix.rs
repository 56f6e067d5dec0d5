//! Matrices that own their words.

use crate::{answer, calls, layout, picture, workspace};
use crate::{ApplyOp, Entries, Error, IntoEntries, Monoid, Options, UnaryOp};
use crate::{MAX_ENTRIES, MAX_MATRIX_WORDS, MAX_ROWS, SLOTS};
use std::collections::BTreeMap;
use std::fmt;
use std::hash::{Hash, Hasher};

/// What a row view shows of a row.
#[derive(Clone, Copy, Debug, PartialEq, Eq, Hash)]
pub enum Section {
    /// The column numbers of its entries.
    Columns,
    /// The values of its entries, as words in two's complement.
    Values,
}

/// A cell with the position of its entry, from [`Matrix::find`].
#[derive(Clone, Copy, Debug, PartialEq, Eq, Hash)]
pub enum Found {
    /// The cell has a value.
    Present {
        /// The value.
        value: i32,
        /// How many entries come before it.
        position: usize,
    },
    /// The cell has no value.
    Absent {
        /// How many entries would come before it.
        position: usize,
    },
}

/// A sparse matrix of whole numbers: each cell has a value or none, and a value of 0 is a value.
///
/// It has 1 to [`MAX_ROWS`] rows, 1 to [`MAX_COLS`](crate::MAX_COLS) columns and at most [`MAX_ENTRIES`] entries. Two
/// matrices are equal where their shapes and all their cells are, whatever their revisions ([`Matrix::revision`]).
///
/// `Display` draws the cells, or lists the entries of a matrix that is too wide or too long for a page.
///
/// ```
/// use ostrubel::{Error, Matrix};
///
/// let matrix = Matrix::from_triples(2, 4, [(0, 0, 10), (0, 1, 20), (1, 3, -5)])?;
/// assert_eq!(matrix.get(1, 3)?, Some(-5));
/// assert_eq!(matrix.get(1, 2)?, None);
/// assert_eq!(matrix.to_string(), "    0   1  2   3\n0  10  20  .   .\n1   .   .  .  -5");
/// # Ok::<(), Error>(())
/// ```
#[derive(Clone, Debug, Eq)]
pub struct Matrix {
    /// Exactly the words of one valid matrix.
    words: Vec<u32>,
}

impl Matrix {
    /// A matrix with no entries.
    ///
    /// # Errors
    ///
    /// `InvalidShape` where rows or columns are outside their limits.
    pub fn new(rows: u32, cols: u32) -> Result<Matrix, Error> {
        let mut words = vec![0; layout::size_of(MAX_ROWS as usize, 0)];
        answer::entries(calls::new_empty(rows, cols, &mut words))?;
        Ok(Matrix::at_front(words))
    }

    /// A matrix with entries given as (row, column, value), in any order.
    ///
    /// The cells are set one after the other: of two triples for one cell the later one counts, and the first triple
    /// that cannot be set gives the error.
    ///
    /// ```
    /// use ostrubel::{Error, Matrix};
    ///
    /// let matrix = Matrix::from_triples(3, 3, [(2, 1, 7), (0, 0, 1), (2, 1, 8)])?;
    /// assert_eq!(matrix.to_triples(), [(0, 0, 1), (2, 1, 8)]);
    /// assert_eq!(Matrix::from_triples(3, 3, [(3, 0, 1)]), Err(Error::IndexOutOfBounds));
    /// # Ok::<(), Error>(())
    /// ```
    ///
    /// # Errors
    ///
    /// `InvalidShape` where rows or columns are outside their limits; `IndexOutOfBounds` for a cell outside the matrix;
    /// `TooManyEntries` above [`MAX_ENTRIES`] cells.
    pub fn from_triples(
        rows: u32,
        cols: u32,
        triples: impl IntoIterator<Item = (u32, u32, i32)>,
    ) -> Result<Matrix, Error> {
        Matrix::new(rows, cols)?;
        let mut cells = BTreeMap::new();
        for (row, col, value) in triples {
            if row >= rows || col >= cols {
                return Err(Error::IndexOutOfBounds);
            }
            cells.insert((row, col), value);
            if cells.len() > MAX_ENTRIES {
                return Err(Error::TooManyEntries);
            }
        }
        let entries: Vec<_> = cells.into_iter().map(|((row, col), value)| (row, col, value)).collect();
        Matrix::from_words(&layout::encode(rows, cols, &entries))
    }

    /// The matrix at the front of the words. Words after it are left out.
    ///
    /// ```
    /// use ostrubel::{Error, Matrix};
    ///
    /// let vector = Matrix::from_words(&[1, 0, 2, 1, 4, 2, 0, 3, 3, 0, 1, 3, 3, 10, 20, 40])?;
    /// assert_eq!(vector.to_triples(), [(0, 0, 10), (0, 1, 20), (0, 3, 40)]);
    /// # Ok::<(), Error>(())
    /// ```
    ///
    /// # Errors
    ///
    /// `InvalidFirst` where the words do not begin with a valid matrix.
    pub fn from_words(words: &[u32]) -> Result<Matrix, Error> {
        answer::entries(calls::check(words))?;
        Ok(Matrix { words: words[..layout::size(words)].to_vec() })
    }

    /// The matrix at the front of words that the library has accepted. What it does not need is given back.
    fn at_front(mut words: Vec<u32>) -> Matrix {
        words.truncate(layout::size(&words));
        words.shrink_to_fit();
        Matrix { words }
    }

    /// The words of the matrix, as `include/ostrubel.h` describes them.
    pub fn words(&self) -> &[u32] {
        &self.words
    }

    /// The words of the matrix.
    pub fn into_words(self) -> Vec<u32> {
        self.words
    }

    /// The revision: 0 of a matrix that was made, and one more after each accepted call that wrote into it, also where no
    /// cell changed. After `u32::MAX` comes 0. A file has it too.
    ///
    /// ```
    /// use ostrubel::{Error, Matrix};
    ///
    /// let mut keys = Matrix::new(2, 3)?;
    /// keys.set(1, 2, 40)?;
    /// keys.clear(0, 0)?; // there was nothing
    /// assert_eq!(keys.revision(), 2);
    /// assert_eq!(keys.set(2, 0, 7), Err(Error::IndexOutOfBounds));
    /// assert_eq!(keys.revision(), 2);
    /// assert_eq!(keys, Matrix::from_triples(2, 3, [(1, 2, 40)])?); // of revision 0
    /// # Ok::<(), Error>(())
    /// ```
    pub fn revision(&self) -> u32 {
        layout::revision(&self.words)
    }

    /// The number of rows.
    pub fn rows(&self) -> u32 {
        layout::rows(&self.words)
    }

    /// The number of columns.
    pub fn cols(&self) -> u32 {
        layout::cols(&self.words)
    }

    /// The number of entries.
    pub fn entries(&self) -> usize {
        layout::entries(&self.words)
    }

    /// The value of the cell at row i and column j, or `None` where it has none.
    ///
    /// # Errors
    ///
    /// `IndexOutOfBounds` for a cell outside the matrix.
    pub fn get(&self, i: u32, j: u32) -> Result<Option<i32>, Error> {
        answer::cell(calls::read_cell(i, j, &self.words))
    }

    /// The cell at row i and column j with a position: that of its entry among all entries of the matrix, row by row and
    /// in rising columns from 0 on, as [`Matrix::iter`] gives them; or where its entry would be put to keep that order.
    ///
    /// # Errors
    ///
    /// `IndexOutOfBounds` for a cell outside the matrix.
    ///
    /// ```
    /// use ostrubel::{Error, Found, Matrix};
    ///
    /// let keys = Matrix::from_triples(3, 4, [(0, 1, 20), (2, 0, 0), (2, 3, 40)])?;
    /// assert_eq!(keys.find(2, 3)?, Found::Present { value: 40, position: 2 });
    /// assert_eq!(keys.find(2, 1)?, Found::Absent { position: 2 }); // between (2, 0) and (2, 3)
    /// assert_eq!(keys.find(1, 3)?, Found::Absent { position: 1 }); // row 1 has no entries
    /// # Ok::<(), Error>(())
    /// ```
    pub fn find(&self, i: u32, j: u32) -> Result<Found, Error> {
        answer::found(calls::read_cell(i, j, &self.words))
    }

    /// Gives the cell at row i and column j a value, whatever it had, and answers the entries of the matrix.
    ///
    /// ```
    /// use ostrubel::{Error, Matrix};
    ///
    /// let mut keys = Matrix::new(2, 3)?;
    /// assert_eq!(keys.set(1, 2, 40)?, 1);
    /// assert_eq!(keys.set(1, 2, 0)?, 1);
    /// assert_eq!(keys.get(1, 2)?, Some(0));
    /// assert_eq!(keys.set(2, 0, 7), Err(Error::IndexOutOfBounds));
    /// # Ok::<(), Error>(())
    /// ```
    ///
    /// # Errors
    ///
    /// `IndexOutOfBounds` for a cell outside the matrix; `TooManyEntries` where the cell has no value and the matrix
    /// has [`MAX_ENTRIES`] entries.
    pub fn set(&mut self, i: u32, j: u32, value: i32) -> Result<usize, Error> {
        self.write_in_store(|store| calls::store_set_cell(0, i, j, value as u32, store))
    }

    /// Takes the value of the cell at row i and column j away, if it has one, and answers the entries of the matrix.
    ///
    /// ```
    /// use ostrubel::{Error, Matrix};
    ///
    /// let mut keys = Matrix::from_triples(2, 3, [(0, 0, 5), (1, 2, 40)])?;
    /// assert_eq!(keys.clear(1, 2)?, 1);
    /// assert_eq!(keys.clear(1, 2)?, 1);
    /// assert_eq!(keys.to_triples(), [(0, 0, 5)]);
    /// # Ok::<(), Error>(())
    /// ```
    ///
    /// # Errors
    ///
    /// `IndexOutOfBounds` for a cell outside the matrix.
    pub fn clear(&mut self, i: u32, j: u32) -> Result<usize, Error> {
        self.write_in_store(|store| calls::store_clear_cell(0, i, j, store))
    }

    /// A matrix with rows and columns exchanged: [`Matrix::apply`] of IDENTITY with
    /// [`transpose_first`](Options::transpose_first), into a new one, whose revision is then 1.
    ///
    /// ```
    /// use ostrubel::{Error, Matrix};
    ///
    /// let matrix = Matrix::from_triples(2, 3, [(0, 2, 7), (1, 0, -5)])?;
    /// let transposed = matrix.transpose();
    /// assert_eq!((transposed.rows(), transposed.cols()), (3, 2));
    /// assert_eq!(transposed.to_triples(), [(0, 1, -5), (2, 0, 7)]);
    /// assert_eq!(transposed.transpose().to_triples(), matrix.to_triples());
    /// # Ok::<(), Error>(())
    /// ```
    pub fn transpose(&self) -> Matrix {
        let mut transposed = Matrix::new(self.cols(), self.rows()).expect("as many rows are allowed as columns");
        let identity = ApplyOp::Unary(UnaryOp::Identity);
        transposed.apply(identity, self, &Options::new().transpose_first()).expect("its shape and as many entries");
        transposed
    }

    /// All values added up with a monoid. Of a matrix with no entries it is the monoid's identity: 0 for PLUS, 1 for TIMES,
    /// the largest value for MIN and the smallest for MAX.
    ///
    /// ```
    /// use ostrubel::{Error, Matrix, Monoid};
    ///
    /// let matrix = Matrix::from_triples(2, 2, [(0, 0, 5), (1, 0, -7), (1, 1, 4)])?;
    /// assert_eq!(matrix.reduce(Monoid::Plus), 2);
    /// assert_eq!(matrix.reduce(Monoid::Min), -7);
    /// assert_eq!(Matrix::new(2, 2)?.reduce(Monoid::Min), i32::MAX);
    /// # Ok::<(), Error>(())
    /// ```
    pub fn reduce(&self, monoid: Monoid) -> i32 {
        answer::number(calls::reduce(monoid.number(), &self.words)).expect("a monoid and a valid matrix")
    }

    /// The entries as (row, column, value): row by row, in rising columns.
    pub fn iter(&self) -> Entries<'_> {
        Entries::new(&self.words)
    }

    /// The entries of row i as (column, value), in rising columns.
    ///
    /// # Errors
    ///
    /// `IndexOutOfBounds` for a row outside the matrix.
    pub fn row(&self, i: u32) -> Result<impl ExactSizeIterator<Item = (u32, i32)> + '_, Error> {
        self.get(i, 0)?;
        let entry = |at| (layout::column_at(&self.words, at), layout::value_at(&self.words, at));
        Ok(layout::row_positions(&self.words, i).map(entry))
    }

    /// Row i over two matrices of one shape: the row of this one where it has an entry, otherwise the row of `below`. The
    /// part of their words with the row's column numbers or values, as asked. [`Matrix::row`] has the entries of one matrix.
    ///
    /// The part has no words where the shapes differ or there is no row i.
    ///
    /// ```
    /// use ostrubel::{Error, Matrix, Section};
    ///
    /// let today = Matrix::from_triples(2, 4, [(0, 1, 9), (0, 3, 8)])?;
    /// let before = Matrix::from_triples(2, 4, [(0, 0, 1), (1, 2, 5)])?;
    /// assert_eq!(today.row_view(&before, 0, Section::Columns), [1, 3]);
    /// assert_eq!(today.row_view(&before, 1, Section::Values), [5]);
    /// assert!(today.row_view(&before, 2, Section::Values).is_empty());
    /// # Ok::<(), Error>(())
    /// ```
    pub fn row_view<'a>(&'a self, below: &'a Matrix, i: u32, section: Section) -> &'a [u32] {
        let answer = calls::row_view(i, section as u32, &self.words, &below.words);
        answer::part(answer, &self.words, &below.words)
    }

    /// The entries as (row, column, value): row by row, in rising columns.
    pub fn to_triples(&self) -> Vec<(u32, u32, i32)> {
        self.iter().collect()
    }

    /// Lends the words, lengthened to those of the largest matrix, and a workspace to a call that writes here. A call
    /// that is refused leaves them as they are. Answers the entries of the final matrix.
    pub(crate) fn write(&mut self, call: impl FnOnce(&mut [u32], &mut [u32]) -> u64) -> Result<usize, Error> {
        self.words.resize(MAX_MATRIX_WORDS, 0);
        let answer = workspace::lend(|work| call(&mut self.words, work));
        *self = Matrix::at_front(std::mem::take(&mut self.words));
        answer::entries(answer)
    }

    /// Lends the matrix as slot 0 of a store that has room for one entry more, to a call on a cell of it. Answers the
    /// entries of the matrix.
    fn write_in_store(&mut self, call: impl FnOnce(&mut [u32]) -> u64) -> Result<usize, Error> {
        let mut sections = [&[][..]; SLOTS];
        sections[0] = &self.words;
        let mut store = layout::encode_sections(&sections);
        store.extend([0; 2]);
        let entries = answer::entries(call(&mut store))?;
        self.words = layout::sections(&store)[0].to_vec();
        Ok(entries)
    }
}

/// Of shapes and cells, and not of revisions.
impl PartialEq for Matrix {
    fn eq(&self, other: &Matrix) -> bool {
        layout::grid(&self.words) == layout::grid(&other.words)
    }
}

/// Of the shape and the cells.
impl Hash for Matrix {
    fn hash<H: Hasher>(&self, state: &mut H) {
        layout::grid(&self.words).hash(state);
    }
}

/// [`Matrix::from_words`].
impl TryFrom<&[u32]> for Matrix {
    type Error = Error;

    fn try_from(words: &[u32]) -> Result<Matrix, Error> {
        Matrix::from_words(words)
    }
}

/// The entries, as [`Matrix::iter`] gives them.
impl IntoIterator for Matrix {
    type Item = (u32, u32, i32);
    type IntoIter = IntoEntries;

    fn into_iter(self) -> IntoEntries {
        IntoEntries::new(self.words)
    }
}

/// The entries, as [`Matrix::iter`] gives them.
impl<'a> IntoIterator for &'a Matrix {
    type Item = (u32, u32, i32);
    type IntoIter = Entries<'a>;

    fn into_iter(self) -> Entries<'a> {
        self.iter()
    }
}

/// The cells as a picture, or the entries as a list.
impl fmt::Display for Matrix {
    fn fmt(&self, f: &mut fmt::Formatter<'_>) -> fmt::Result {
        picture::write(self, f)
    }
}
