//! A day matrix over a base matrix.

use crate::{answer, calls, Error, Found, Matrix, Section};

/// The rows that were rewritten during a day, kept beside a base matrix that stays as it is.
///
/// A rewritten row is shown from the day matrix, even if it is empty there, every other row from the base matrix. The
/// marks are a vector with a column for each row: an entry, whatever its value, marks a rewritten row.
///
/// ```
/// use ostrubel::{DayOver, Error, Matrix, Section};
///
/// let base = Matrix::from_triples(3, 2, [(0, 0, 10), (1, 0, 11), (2, 1, 12)])?;
/// let mut day = DayOver::new(&base)?;
/// day.rewrite(1, &Matrix::from_triples(1, 2, [(0, 1, 21)])?)?;
/// day.rewrite(2, &Matrix::new(1, 2)?)?; // row 2 is empty today
/// assert_eq!(day.get(1, 1)?, Some(21));
/// assert_eq!(day.get(2, 1)?, None);
/// assert_eq!(day.row(0, Section::Values), [10]);
/// assert_eq!(day.fold()?.to_triples(), [(0, 0, 10), (1, 1, 21)]);
///
/// day.take_back(2)?;
/// assert_eq!(day.get(2, 1)?, Some(12));
/// # Ok::<(), Error>(())
/// ```
#[derive(Clone, Debug, PartialEq, Eq)]
pub struct DayOver<'a> {
    base: &'a Matrix,
    day: Matrix,
    marks: Matrix,
}

impl<'a> DayOver<'a> {
    /// A day on which no row is rewritten yet.
    ///
    /// # Errors
    ///
    /// None: a day matrix and marks of the base matrix's shape are within the limits.
    pub fn new(base: &'a Matrix) -> Result<DayOver<'a>, Error> {
        let (day, marks) = (Matrix::new(base.rows(), base.cols())?, Matrix::new(1, base.rows())?);
        Ok(DayOver { base, day, marks })
    }

    /// A day that was kept: its day matrix and its marks. They are looked at by each call: where they do not fit the base
    /// matrix it is refused by `InvalidShape`, and [`DayOver::row`] has no words.
    pub fn from_parts(base: &'a Matrix, day: Matrix, marks: Matrix) -> DayOver<'a> {
        DayOver { base, day, marks }
    }

    /// The day matrix, with the rewritten rows.
    pub fn day(&self) -> &Matrix {
        &self.day
    }

    /// The marks of the rewritten rows.
    pub fn marks(&self) -> &Matrix {
        &self.marks
    }

    /// The day matrix and the marks.
    pub fn into_parts(self) -> (Matrix, Matrix) {
        (self.day, self.marks)
    }

    /// Row i becomes the row of a vector, and is marked. Answers the entries of the day matrix.
    ///
    /// # Errors
    ///
    /// `IndexOutOfBounds` for a row outside the matrix; `InvalidShape` where the new row is no vector with as many columns;
    /// `TooManyEntries` where the day matrix would have more than [`MAX_ENTRIES`](crate::MAX_ENTRIES).
    pub fn rewrite(&mut self, i: u32, row: &Matrix) -> Result<usize, Error> {
        self.day.rewrite_row(&mut self.marks, i, row)
    }

    /// The rewrite of row i is taken back: the base matrix's row is shown again. Answers the entries of the day matrix.
    ///
    /// # Errors
    ///
    /// `IndexOutOfBounds` for a row outside the matrix.
    pub fn take_back(&mut self, i: u32) -> Result<usize, Error> {
        self.day.take_row_back(&mut self.marks, i)
    }

    /// The value that is shown at row i and column j, or `None` where there is none.
    ///
    /// # Errors
    ///
    /// `IndexOutOfBounds` for a cell outside the matrix.
    pub fn get(&self, i: u32, j: u32) -> Result<Option<i32>, Error> {
        answer::cell(calls::day_read(i, j, self.base.words(), self.day.words(), self.marks.words()))
    }

    /// The cell that is shown at row i and column j, with its position in the matrix that the row is shown from.
    ///
    /// # Errors
    ///
    /// `IndexOutOfBounds` for a cell outside the matrix.
    pub fn find(&self, i: u32, j: u32) -> Result<Found, Error> {
        answer::found(calls::day_read(i, j, self.base.words(), self.day.words(), self.marks.words()))
    }

    /// Row i as it is shown: its column numbers or its values, a part of the day matrix or of the base matrix. It has no
    /// words where there is no row i.
    pub fn row(&self, i: u32, section: Section) -> &[u32] {
        let (base, day) = (self.base.words(), self.day.words());
        answer::part(calls::day_show(i, section as u32, base, day, self.marks.words()), base, day)
    }

    /// One new matrix with every row as it is shown.
    ///
    /// # Errors
    ///
    /// `TooManyEntries` where it would have more than [`MAX_ENTRIES`](crate::MAX_ENTRIES).
    pub fn fold(&self) -> Result<Matrix, Error> {
        let mut folded = Matrix::new(1, 1)?;
        folded.write(|out, _| calls::day_fold(self.base.words(), self.day.words(), self.marks.words(), out))?;
        Ok(folded)
    }
}

impl Matrix {
    /// Row i of this day matrix becomes the row of a vector, and is marked with 1. [`DayOver::rewrite`] does it beside a
    /// base matrix. Answers the entries of the day matrix.
    ///
    /// ```
    /// use ostrubel::{Error, Matrix};
    ///
    /// let (mut day, mut marks) = (Matrix::new(3, 2)?, Matrix::new(1, 3)?);
    /// assert_eq!(day.rewrite_row(&mut marks, 1, &Matrix::from_triples(1, 2, [(0, 1, 21)])?)?, 1);
    /// assert_eq!((day.to_triples(), marks.to_triples()), (vec![(1, 1, 21)], vec![(0, 1, 1)]));
    /// assert_eq!(day.take_row_back(&mut marks, 1)?, 0);
    /// assert_eq!(marks.entries(), 0);
    /// # Ok::<(), Error>(())
    /// ```
    ///
    /// # Errors
    ///
    /// `IndexOutOfBounds` for a row outside the matrix; `InvalidShape` where the marks are no vector with a column for each
    /// row, or the new row is none with as many columns; `TooManyEntries` above [`MAX_ENTRIES`](crate::MAX_ENTRIES).
    pub fn rewrite_row(&mut self, marks: &mut Matrix, i: u32, row: &Matrix) -> Result<usize, Error> {
        self.write_marked(marks, |day, marks| calls::day_rewrite(i, row.words(), day, marks))
    }

    /// Row i of this day matrix becomes empty, and its mark goes, if there is one. Answers the entries of the day matrix.
    ///
    /// # Errors
    ///
    /// `IndexOutOfBounds` for a row outside the matrix; `InvalidShape` where the marks are no vector with a column for each
    /// row.
    pub fn take_row_back(&mut self, marks: &mut Matrix, i: u32) -> Result<usize, Error> {
        self.write_marked(marks, |day, marks| calls::day_back(i, day, marks))
    }

    /// Lends this day matrix and its marks, both lengthened to the largest, to a call that writes them.
    fn write_marked(
        &mut self,
        marks: &mut Matrix,
        call: impl FnOnce(&mut [u32], &mut [u32]) -> u64,
    ) -> Result<usize, Error> {
        // Both matrices have the one answer; the marks' own entries are not asked.
        self.write(|day, _| {
            let mut answer = 0;
            let _ = marks.write(|marks, _| {
                answer = call(day, marks);
                answer
            });
            answer
        })
    }
}
