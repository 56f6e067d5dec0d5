//! Formulas over the slots of a store.

use crate::limits::{MAX_BRACKETS, MAX_FORMULA_BYTES};
use crate::{answer, calls, workspace, Error, Semiring, Store};
use std::fmt;

/// Why a formula was refused. The store is as it was.
///
/// ```
/// use ostrubel::{BinaryOp, FormulaError, Monoid, Semiring, Store};
///
/// let mut store = Store::new(100).unwrap();
/// let plus_times = Semiring::new(Monoid::Plus, BinaryOp::Times);
/// let refusal = store.formula(0, "1+(2*)", plus_times).unwrap_err();
/// assert_eq!(refusal, FormulaError::Text { at: 5 });
/// assert_eq!(refusal.number(), 14);
/// ```
#[derive(Clone, Copy, Debug, PartialEq, Eq, Hash)]
pub enum FormulaError {
    /// 14: the text is no formula. The byte at `at`, counted from 0, cannot stand there; where that is the text's length,
    /// the text ends too early.
    Text {
        /// Where the text stops being the front of a formula.
        at: usize,
    },
    /// Any other refusal.
    Refused(Error),
}

impl FormulaError {
    /// The refusal's number.
    pub fn number(self) -> u32 {
        self.error().number()
    }

    /// The refusal without its place.
    pub fn error(self) -> Error {
        match self {
            FormulaError::Text { .. } => Error::InvalidFormula,
            FormulaError::Refused(error) => error,
        }
    }
}

impl fmt::Display for FormulaError {
    fn fmt(&self, f: &mut fmt::Formatter<'_>) -> fmt::Result {
        match self {
            FormulaError::Text { at } => write!(f, "{} It goes wrong at sign {}.", Error::InvalidFormula, at + 1),
            FormulaError::Refused(error) => error.fmt(f),
        }
    }
}

impl std::error::Error for FormulaError {}

impl From<FormulaError> for Error {
    fn from(refusal: FormulaError) -> Error {
        refusal.error()
    }
}

/// Whether a text is a formula: `Text` where it is none.
///
/// ```
/// use ostrubel::{check_formula, FormulaError};
///
/// assert_eq!(check_formula("0*1+(2+3)*4"), Ok(()));
/// assert_eq!(check_formula("0*1+(2+3*4"), Err(FormulaError::Text { at: 10 }));
/// ```
///
/// # Errors
///
/// `Text`.
pub fn check_formula(text: &str) -> Result<(), FormulaError> {
    fault(text.as_bytes()).map_or(Ok(()), |at| Err(FormulaError::Text { at }))
}

impl Store {
    /// Works out a formula and puts its value into the target's slot, whatever was there. The value's entries.
    ///
    /// A formula is terms joined by `+`, a term is factors joined by `*`, a factor is a digit that names a slot or a formula
    /// in round brackets. `*` is [`Store::mxm`] by the semiring and `+` [`Store::ewise_add`] by its monoid's operator, both
    /// from left to right, without mask and accumulator. The slots are read before the target is written.
    ///
    /// ```
    /// use ostrubel::{BinaryOp, Error, Matrix, Monoid, Semiring, Store};
    ///
    /// let mut store = Store::new(200)?;
    /// for (slot, value) in [(0, 2), (1, 3), (2, 5), (3, 7), (4, 10)] {
    ///     store.put(slot, &Matrix::from_triples(1, 1, [(0, 0, value)])?)?;
    /// }
    /// let plus_times = Semiring::new(Monoid::Plus, BinaryOp::Times);
    /// assert_eq!(store.formula(7, "0*1+(2+3)*4", plus_times)?, 1);
    /// assert_eq!(store.get(7, 0, 0)?, Some(126));
    /// # Ok::<(), Error>(())
    /// ```
    ///
    /// # Errors
    ///
    /// `Text` with the place where the text goes wrong, or `Refused` by `InvalidStore` (a target above 7), `EmptySlot` (a
    /// slot that the text names), the first failing step's `InvalidShape` or `TooManyEntries`, or `InsufficientSpace`.
    pub fn formula(&mut self, target: usize, text: &str, semiring: Semiring) -> Result<usize, FormulaError> {
        let (monoid, op) = semiring.numbers();
        let bytes = text.as_bytes();
        let written = self.write_formula(|words, stack| calls::store_formula(target, monoid, op, bytes, words, stack));
        written.map_err(|error| match error {
            Error::InvalidFormula => FormulaError::Text { at: fault(bytes).unwrap_or(bytes.len()) },
            _ => FormulaError::Refused(error),
        })
    }

    /// Lends the words and a stack to a formula.
    fn write_formula(&mut self, call: impl FnOnce(&mut [u32], &mut [u32]) -> u64) -> Result<usize, Error> {
        answer::entries(workspace::lend_stack(|stack| self.lend_words(|words| call(words, stack))))
    }
}

/// Where a text stops being the front of a formula; none where it is one.
fn fault(text: &[u8]) -> Option<usize> {
    let (mut open, mut wants_factor) = (0, true);
    for (at, byte) in text.iter().enumerate() {
        match byte {
            _ if at == MAX_FORMULA_BYTES => return Some(at),
            b'0'..=b'7' if wants_factor => wants_factor = false,
            b'(' if wants_factor && open < MAX_BRACKETS => open += 1,
            b')' if !wants_factor && open > 0 => open -= 1,
            b'+' | b'*' if !wants_factor => wants_factor = true,
            _ => return Some(at),
        }
    }
    (wants_factor || open > 0).then_some(text.len())
}

#[cfg(test)]
mod tests {
    use super::*;
    use crate::Matrix;

    #[test]
    fn the_place_of_a_fault() {
        let long = "0+".repeat(32);
        let texts = [
            ("", 0),
            ("8", 0),
            ("0+", 2),
            ("0 +1", 1),
            ("(0", 2),
            ("0)", 1),
            ("()", 1),
            ("01", 1),
            ("((((0))))", 3),
            (&format!("{long}0"), 64),
        ];
        for (text, at) in texts {
            assert_eq!(fault(text.as_bytes()), Some(at), "{text}");
        }
        for text in ["0", "(((7)))", "0*1+(2+3)*4", long.trim_end_matches('+')] {
            assert_eq!(fault(text.as_bytes()), None, "{text}");
        }
    }

    /// Texts of at most five signs: the library and `fault` agree on which are formulas.
    #[test]
    fn faults_are_the_library_s() {
        let mut store = Store::new(100).unwrap();
        store.put(0, &Matrix::from_triples(1, 1, [(0, 0, 1)]).unwrap()).unwrap();
        let mut texts = vec![Vec::new()];
        while let Some(text) = texts.pop() {
            let mut words = store.words().to_vec();
            let refused = calls::store_formula(0, 3, 5, &text, &mut words, &mut []) == 14;
            assert_eq!(fault(&text).is_some(), refused, "{text:?}");
            if text.len() < 5 {
                texts.extend(b"08+*()".iter().map(|&byte| [&text[..], &[byte]].concat()));
            }
        }
    }
}
