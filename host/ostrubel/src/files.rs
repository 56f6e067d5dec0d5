//! Matrices in files, and as text.

use crate::{answer, calls};
use crate::{Error, Matrix, MAX_FILE_BYTES, MAX_MATRIX_WORDS, MAX_TEXT_BYTES};
use std::io::{self, Read, Write};

/// A file is the words of a matrix and nothing more, four bytes each, the lowest byte first. A matrix with its revision has
/// one file. Files of the form before revisions, which begin with 2, are read too: their matrix has revision 0.
impl Matrix {
    /// The bytes of the matrix's file.
    ///
    /// ```
    /// use ostrubel::{Error, Matrix};
    ///
    /// let matrix = Matrix::from_triples(2, 3, [(0, 2, 7), (1, 0, -5)])?;
    /// let bytes = matrix.to_bytes();
    /// assert_eq!(bytes.len(), 4 * matrix.words().len());
    /// assert_eq!(bytes[..12], [1, 0, 0, 0, 0, 0, 0, 0, 2, 0, 0, 0]);
    /// assert_eq!(Matrix::from_bytes(&bytes)?, matrix);
    /// # Ok::<(), Error>(())
    /// ```
    pub fn to_bytes(&self) -> Vec<u8> {
        let mut bytes = vec![0; 4 * self.words().len()];
        let answer = calls::write_file(self.words(), &mut bytes);
        debug_assert_eq!(answer::entries(answer), Ok(self.entries()));
        bytes
    }

    /// The matrix of a file, given by its bytes.
    ///
    /// ```
    /// use ostrubel::{Error, Matrix};
    ///
    /// let mut bytes = Matrix::new(3, 4)?.to_bytes();
    /// bytes.push(0);
    /// assert_eq!(Matrix::from_bytes(&bytes), Err(Error::InvalidFile));
    /// # Ok::<(), Error>(())
    /// ```
    ///
    /// # Errors
    ///
    /// `InvalidFile` where they are no file: no valid matrix, or one byte more or less than its bytes.
    pub fn from_bytes(bytes: &[u8]) -> Result<Matrix, Error> {
        let mut words = vec![0; MAX_MATRIX_WORDS];
        answer::entries(calls::read_file(bytes, &mut words))?;
        Matrix::from_words(&words)
    }

    /// Reads a file to its end. It may come in pieces of any length.
    ///
    /// ```
    /// use ostrubel::Matrix;
    ///
    /// let matrix = Matrix::from_triples(1, 4, [(0, 1, 20), (0, 3, 40)])?;
    /// let mut file = Vec::new();
    /// matrix.write_to(&mut file)?;
    /// assert_eq!(Matrix::read_from(file.as_slice())?, matrix);
    /// let error = Matrix::read_from(&file[1..]).unwrap_err();
    /// assert_eq!(error.kind(), std::io::ErrorKind::InvalidData);
    /// # Ok::<(), Box<dyn std::error::Error>>(())
    /// ```
    ///
    /// # Errors
    ///
    /// Those of the reader; `InvalidData` with [`Error::InvalidFile`] inside where the bytes are no file. Of a source that
    /// is longer than any file, no more than one byte past [`MAX_FILE_BYTES`] is read.
    pub fn read_from(source: impl Read) -> io::Result<Matrix> {
        let mut bytes = Vec::new();
        source.take(MAX_FILE_BYTES as u64 + 1).read_to_end(&mut bytes)?;
        Matrix::from_bytes(&bytes).map_err(|error| io::Error::new(io::ErrorKind::InvalidData, error))
    }

    /// Writes the matrix's file.
    ///
    /// # Errors
    ///
    /// Those of the writer.
    pub fn write_to(&self, mut target: impl Write) -> io::Result<()> {
        target.write_all(&self.to_bytes())
    }

    /// The matrix as text: a line with rows, columns and the number of entries, then a line with row, column and value
    /// for each entry. `Display` draws it instead.
    ///
    /// ```
    /// use ostrubel::{Error, Matrix};
    ///
    /// let vector = Matrix::from_triples(1, 4, [(0, 0, 10), (0, 1, 20), (0, 3, 40)])?;
    /// assert_eq!(vector.to_text(), "1 4 3\n0 0 10\n0 1 20\n0 3 40\n");
    /// # Ok::<(), Error>(())
    /// ```
    pub fn to_text(&self) -> String {
        let mut text = vec![0; MAX_TEXT_BYTES];
        let length = answer::entries(calls::write_text(self.words(), &mut text)).unwrap_or(0);
        text.truncate(length);
        String::from_utf8(text).unwrap_or_else(|_| unreachable!("the library writes digits, blanks and newlines"))
    }
}
