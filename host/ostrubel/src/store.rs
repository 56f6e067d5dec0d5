//! Stores that own their words.

use crate::{answer, calls, layout, workspace};
use crate::{Error, Found, Matrix, Monoid, MAX_STORE_WORDS};
use std::fmt;

/// A store of eight slots, 0 to 7, each empty or with a matrix, in a fixed number of words.
///
/// A matrix of R rows and N entries takes R + 2N + 9 words. What one matrix frees serves the others: a write is
/// accepted where 8 words and all matrices, as they are after it, fit the store.
///
/// `Display` draws the matrix of each slot that has one. `Default` is the longest store, with nothing in it.
///
/// ```
/// use ostrubel::{BinaryOp, Error, Options, Store};
///
/// let mut store = Store::new(100)?;
/// store.new_empty(0, 2, 3)?;
/// store.set(0, 1, 2, 40)?;
/// store.set(0, 0, 0, -5)?;
/// store.ewise_add(0, BinaryOp::Plus, 0, 0, &Options::new())?;
/// assert_eq!(store.get(0, 1, 2)?, Some(80));
/// assert_eq!(store.matrix(0)?.to_triples(), [(0, 0, -10), (1, 2, 80)]);
/// # Ok::<(), Error>(())
/// ```
#[derive(Clone, Debug, PartialEq, Eq, Hash)]
pub struct Store {
    /// The words of a store, as the library accepts them.
    words: Vec<u32>,
}

impl Store {
    /// A store of so many words with eight empty slots.
    ///
    /// # Errors
    ///
    /// `InvalidStore` where the number of words is not [`MIN_STORE_WORDS`](crate::MIN_STORE_WORDS) to
    /// [`MAX_STORE_WORDS`].
    pub fn new(words: usize) -> Result<Store, Error> {
        if words > MAX_STORE_WORDS {
            return Err(Error::InvalidStore);
        }
        Store::from_words(vec![0; words])
    }

    /// The store that the words are.
    ///
    /// # Errors
    ///
    /// `InvalidStore` where they are none.
    pub fn from_words(words: Vec<u32>) -> Result<Store, Error> {
        let store = Store { words };
        match store.get(0, 0, 0) {
            Err(Error::InvalidStore) => Err(Error::InvalidStore),
            _ => Ok(store),
        }
    }

    /// The words of the store, as `include/ostrubel.h` describes them.
    pub fn words(&self) -> &[u32] {
        &self.words
    }

    /// The words of the store.
    pub fn into_words(self) -> Vec<u32> {
        self.words
    }

    /// Puts a matrix with no entries into a slot, whatever was there.
    ///
    /// # Errors
    ///
    /// `InvalidStore` for a slot above 7; `InvalidShape` where rows or columns are outside their limits;
    /// `InsufficientSpace` where it does not fit.
    pub fn new_empty(&mut self, slot: usize, rows: u32, cols: u32) -> Result<(), Error> {
        answer::entries(calls::store_new_empty(slot, rows, cols, &mut self.words))?;
        Ok(())
    }

    /// Empties a slot, which may be empty already.
    ///
    /// # Errors
    ///
    /// `InvalidStore` for a slot above 7.
    pub fn drop_slot(&mut self, slot: usize) -> Result<(), Error> {
        answer::entries(calls::store_drop(slot, &mut self.words))?;
        Ok(())
    }

    /// Gives the cell at row i and column j a value, and answers the entries of its matrix.
    ///
    /// # Errors
    ///
    /// `InvalidStore` for a slot above 7; `EmptySlot`; `IndexOutOfBounds` for a cell outside the matrix;
    /// `TooManyEntries` where it is full; `InsufficientSpace` where the entry does not fit.
    pub fn set(&mut self, slot: usize, i: u32, j: u32, value: i32) -> Result<usize, Error> {
        answer::entries(calls::store_set_cell(slot, i, j, value as u32, &mut self.words))
    }

    /// Takes the value of the cell at row i and column j away, if it has one, and answers the entries of its matrix.
    ///
    /// # Errors
    ///
    /// `InvalidStore` for a slot above 7; `EmptySlot`; `IndexOutOfBounds` for a cell outside the matrix.
    pub fn clear(&mut self, slot: usize, i: u32, j: u32) -> Result<usize, Error> {
        answer::entries(calls::store_clear_cell(slot, i, j, &mut self.words))
    }

    /// The value of the cell at row i and column j, or `None` where it has none.
    ///
    /// # Errors
    ///
    /// `InvalidStore` for a slot above 7; `EmptySlot`; `IndexOutOfBounds` for a cell outside the matrix.
    pub fn get(&self, slot: usize, i: u32, j: u32) -> Result<Option<i32>, Error> {
        answer::cell(calls::store_read_cell(slot, i, j, &self.words))
    }

    /// The cell at row i and column j with the position of its entry, or where that would be put: [`Matrix::find`] of the
    /// slot's matrix.
    ///
    /// # Errors
    ///
    /// `InvalidStore` for a slot above 7; `EmptySlot`; `IndexOutOfBounds` for a cell outside the matrix.
    ///
    /// ```
    /// use ostrubel::{Error, Found, Store};
    ///
    /// let mut store = Store::new(40)?;
    /// store.new_empty(0, 2, 4)?;
    /// store.set(0, 0, 3, 5)?;
    /// assert_eq!(store.find(0, 1, 2)?, Found::Absent { position: 1 });
    /// store.set(0, 1, 2, 7)?;
    /// assert_eq!(store.find(0, 1, 2)?, Found::Present { value: 7, position: 1 });
    /// # Ok::<(), Error>(())
    /// ```
    pub fn find(&self, slot: usize, i: u32, j: u32) -> Result<Found, Error> {
        answer::found(calls::store_read_cell(slot, i, j, &self.words))
    }

    /// All values of a slot's matrix added up with a monoid; where it has none, the monoid's identity.
    ///
    /// ```
    /// use ostrubel::{Error, Monoid, Store};
    ///
    /// let mut store = Store::new(40)?;
    /// store.new_empty(3, 2, 2)?;
    /// assert_eq!(store.reduce(3, Monoid::Max)?, i32::MIN);
    /// store.set(3, 1, 1, -4)?;
    /// assert_eq!(store.reduce(3, Monoid::Max)?, -4);
    /// assert_eq!(store.reduce(2, Monoid::Max), Err(Error::EmptySlot));
    /// # Ok::<(), Error>(())
    /// ```
    ///
    /// # Errors
    ///
    /// `InvalidStore` for a slot above 7; `EmptySlot`.
    pub fn reduce(&self, slot: usize, monoid: Monoid) -> Result<i32, Error> {
        answer::number(calls::store_reduce(slot, monoid.number(), &self.words))
    }

    /// A copy of a slot's matrix.
    ///
    /// # Errors
    ///
    /// `InvalidStore` for a slot above 7; `EmptySlot`.
    pub fn matrix(&self, slot: usize) -> Result<Matrix, Error> {
        self.get(slot, 0, 0)?;
        Matrix::from_words(self.section(slot))
    }

    /// The revision of a slot's matrix: [`Matrix::revision`].
    ///
    /// ```
    /// use ostrubel::{Error, Store};
    ///
    /// let mut store = Store::new(40)?;
    /// store.new_empty(0, 2, 4)?;
    /// let before = store.revision(0)?;
    /// store.set(0, 0, 3, 5)?;
    /// assert_eq!((before, store.revision(0)?), (0, 1));
    /// assert_eq!(store.revision(1), Err(Error::EmptySlot));
    /// # Ok::<(), Error>(())
    /// ```
    ///
    /// # Errors
    ///
    /// `InvalidStore` for a slot above 7; `EmptySlot`.
    pub fn revision(&self, slot: usize) -> Result<u32, Error> {
        self.get(slot, 0, 0)?;
        Ok(layout::revision(self.section(slot)))
    }

    /// Puts a copy of a matrix with its revision into a slot, whatever was there. Its cells are those that `new_empty` and
    /// a `set` for each entry would give, but where it does not fit, nothing is written.
    ///
    /// ```
    /// use ostrubel::{Error, Matrix, Store};
    ///
    /// let matrix = Matrix::from_triples(3, 3, [(0, 2, 7), (2, 0, 0)])?;
    /// let mut store = Store::new(24)?;
    /// store.put(5, &matrix)?;
    /// assert_eq!(store.matrix(5)?, matrix);
    /// assert_eq!(store.put(6, &matrix), Err(Error::InsufficientSpace));
    /// # Ok::<(), Error>(())
    /// ```
    ///
    /// # Errors
    ///
    /// `InvalidStore` for a slot above 7; `InsufficientSpace` where it does not fit.
    pub fn put(&mut self, slot: usize, matrix: &Matrix) -> Result<(), Error> {
        let mut sections = layout::sections(&self.words);
        *sections.get_mut(slot).ok_or(Error::InvalidStore)? = matrix.words();
        let mut words = layout::encode_sections(&sections);
        if words.len() > self.words.len() {
            return Err(Error::InsufficientSpace);
        }
        words.resize(self.words.len(), 0);
        *self = Store::from_words(words)?;
        Ok(())
    }

    /// Whether a slot has a matrix. A slot above 7 has none.
    pub fn occupied(&self, slot: usize) -> bool {
        !self.section(slot).is_empty()
    }

    /// The words in use: 8, and the sizes of all matrices.
    pub fn used_words(&self) -> usize {
        layout::sections(&self.words).iter().map(|matrix| 1 + matrix.len()).sum()
    }

    /// The words of a slot's matrix. An empty slot has none, nor has one above 7.
    fn section(&self, slot: usize) -> &[u32] {
        layout::sections(&self.words).get(slot).copied().unwrap_or_default()
    }

    /// Lends the words to a call.
    pub(crate) fn lend_words<R>(&mut self, call: impl FnOnce(&mut [u32]) -> R) -> R {
        call(&mut self.words)
    }

    /// Lends the words and a workspace to an operation. Answers the entries of the final C.
    pub(crate) fn write(&mut self, call: impl FnOnce(&mut [u32], &mut [u32]) -> u64) -> Result<usize, Error> {
        answer::entries(workspace::lend(|work| call(&mut self.words, work)))
    }
}

/// A store of [`MAX_STORE_WORDS`] with eight empty slots.
impl Default for Store {
    fn default() -> Store {
        Store { words: vec![0; MAX_STORE_WORDS] }
    }
}

/// The matrices, each under the number of its slot, and how many words are used.
///
/// ```
/// use ostrubel::{Error, Store};
///
/// let mut store = Store::new(40)?;
/// store.new_empty(3, 1, 2)?;
/// store.set(3, 0, 1, -5)?;
/// assert_eq!(store.to_string(), "slot 3:\n   0   1\n0  .  -5\n20 of 40 words are used");
/// # Ok::<(), Error>(())
/// ```
impl fmt::Display for Store {
    fn fmt(&self, f: &mut fmt::Formatter<'_>) -> fmt::Result {
        for (slot, words) in layout::sections(&self.words).into_iter().enumerate() {
            if let Ok(matrix) = Matrix::from_words(words) {
                writeln!(f, "slot {slot}:\n{matrix}")?;
            }
        }
        write!(f, "{} of {} words are used", self.used_words(), self.words.len())
    }
}
