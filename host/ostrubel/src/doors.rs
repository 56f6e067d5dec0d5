//! Keys behind doors.

use crate::{calls, Error, Matrix};

impl Matrix {
    /// The doors that open within an allowance of rounds, as a new vector with a column for each door: its value is the
    /// first round in which the door opens.
    ///
    /// `locks` has a row for each key and a column for each door that it opens, `cabinets` a row for each door and a
    /// column for each key in the cabinet behind it, and `hand` is the vector of the keys in hand. An entry counts
    /// whatever its value. In round 0 the keys in hand open doors, and in each round after it those and the keys found
    /// behind doors. An allowance beyond the number of keys adds nothing.
    ///
    /// ```
    /// use ostrubel::{Error, Matrix};
    ///
    /// // Key 0 opens door 1. Key 1 is behind that, and opens the doors 0 and 1. No key opens door 2.
    /// let locks = Matrix::from_triples(2, 3, [(0, 1, 1), (1, 0, 1), (1, 1, 1)])?;
    /// let cabinets = Matrix::from_triples(3, 2, [(1, 1, 0)])?;
    /// let hand = Matrix::from_triples(1, 2, [(0, 0, 1)])?;
    /// let doors = Matrix::open_doors(&locks, &cabinets, &hand, 5)?;
    /// assert_eq!(doors.to_triples(), [(0, 0, 1), (0, 1, 0)]);
    /// assert_eq!(doors.to_string(), "   0  1  2\n0  1  0  .");
    /// assert_eq!(Matrix::open_doors(&locks, &cabinets, &hand, 0)?.to_triples(), [(0, 1, 0)]);
    /// # Ok::<(), Error>(())
    /// ```
    ///
    /// # Errors
    ///
    /// `IndexOutOfBounds` where the allowance is above [`MAX_ALLOWANCE`](crate::MAX_ALLOWANCE), `InvalidShape` where
    /// the shapes are not keys by doors, doors by keys and 1 by keys.
    pub fn open_doors(locks: &Matrix, cabinets: &Matrix, hand: &Matrix, allowance: u32) -> Result<Matrix, Error> {
        let mut doors = Matrix::new(1, 1)?;
        doors.write(|out, work| {
            calls::open_doors(allowance, locks.words(), cabinets.words(), hand.words(), out, work)
        })?;
        Ok(doors)
    }
}
