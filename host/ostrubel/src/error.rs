//! Refusals.

use crate::limits::{
    FORMULA_WORDS, MAX_ALLOWANCE, MAX_BRACKETS, MAX_COLS, MAX_ENTRIES, MAX_FILE_BYTES, MAX_FORMULA_BYTES, MAX_INDEXES,
    MAX_ROWS, MAX_STORE_WORDS, MIN_STORE_WORDS, SLOTS, WORKSPACE_WORDS,
};
use crate::operators::{BinaryOp, IndexUnaryOp, Monoid, SelectOp, UnaryOp};
use std::borrow::Cow;
use std::fmt;

/// Why a call was refused. A refused call changes nothing.
///
/// `Display` gives a sentence for the person who asked for the call, in the words of the coordinators: a matrix is a
/// sheet, a store is a shelf, and a slot is a place on it.
///
/// ```
/// use ostrubel::{Error, Store};
///
/// let mut store = Store::new(100)?;
/// let refusal = store.set(0, 0, 0, 1).unwrap_err();
/// assert_eq!(refusal, Error::EmptySlot);
/// assert_eq!(refusal.number(), 13);
/// assert_eq!(refusal.to_string(), "The place holds no sheet: lay one there first.");
/// # Ok::<(), Error>(())
/// ```
#[derive(Clone, Copy, Debug, PartialEq, Eq, Hash)]
pub enum Error {
    /// 1: flags above 31. No descriptor has them.
    FlagsOutOfRange = 1,
    /// 2: no such operator, monoid or accumulator. Given where a name is parsed.
    UnknownOperator = 2,
    /// 3: the first input, or the only one, is no valid matrix.
    InvalidFirst = 3,
    /// 4: the second input, or the day matrix, is no valid matrix.
    InvalidSecond = 4,
    /// 5: the mask, the marks or the keys in hand are no valid matrix.
    InvalidMask = 5,
    /// 6: the output, or the new row of a day matrix, is no valid matrix.
    InvalidOutput = 6,
    /// 7: an index, row or column past the matrix, or an index list that is empty, has over [`MAX_INDEXES`] indexes or
    /// has one of them twice, or an allowance above [`MAX_ALLOWANCE`].
    IndexOutOfBounds = 7,
    /// 8: rows or columns outside 1 to [`MAX_ROWS`] and [`MAX_COLS`], shapes that disagree, or more than one row where a
    /// vector is due.
    InvalidShape = 8,
    /// 9: a workspace under [`WORKSPACE_WORDS`] words, or under [`FORMULA_WORDS`] for a formula. `Matrix` and `Store`
    /// provide one that is long enough.
    WorkspaceTooShort = 9,
    /// 10: a matrix would have over [`MAX_ENTRIES`] entries.
    TooManyEntries = 10,
    /// 11: the matrices do not fit the store.
    InsufficientSpace = 11,
    /// 12: the length or the words are no store's, or a slot is not below [`SLOTS`].
    InvalidStore = 12,
    /// 13: a slot that must have a matrix is empty.
    EmptySlot = 13,
    /// 14: a text that is no formula.
    InvalidFormula = 14,
    /// 15: bytes that are no file: their number is not that of a matrix's file, or they are no valid matrix.
    InvalidFile = 15,
}

impl Error {
    /// All refusals, in the order of their numbers.
    pub const ALL: [Error; 15] = [
        Error::FlagsOutOfRange,
        Error::UnknownOperator,
        Error::InvalidFirst,
        Error::InvalidSecond,
        Error::InvalidMask,
        Error::InvalidOutput,
        Error::IndexOutOfBounds,
        Error::InvalidShape,
        Error::WorkspaceTooShort,
        Error::TooManyEntries,
        Error::InsufficientSpace,
        Error::InvalidStore,
        Error::EmptySlot,
        Error::InvalidFormula,
        Error::InvalidFile,
    ];

    /// The refusal's number, 1 to 15.
    pub const fn number(self) -> u32 {
        self as u32
    }

    /// The refusal with a number, if there is one.
    pub fn from_number(number: u32) -> Option<Error> {
        Error::ALL.into_iter().find(|error| error.number() == number)
    }

    /// What is wrong and what to do about it. A limit is the constant's number.
    fn sentence(self) -> Cow<'static, str> {
        let last = SLOTS - 1;
        match self {
            Error::FlagsOutOfRange => {
                "The flags are above 31: add up only 1, 2, 4, 8 and 16, each at most once.".into()
            }
            Error::UnknownOperator => format!(
                "There is no such operator: choose among {} for two values (to add up: {}), {} for one, {} for rows \
                 and columns, and {} to select by.",
                listed(BinaryOp::ALL.iter().map(|op| op.name())),
                listed(Monoid::ALL.iter().map(|op| op.name())),
                listed(UnaryOp::ALL.iter().map(|op| op.name())),
                listed(IndexUnaryOp::ALL.iter().map(|op| op.name())),
                listed(SelectOp::ALL.iter().map(|op| op.name())),
            )
            .into(),
            Error::InvalidFirst => {
                "The sheet, or the first of two, is damaged: take a sound copy of it, or write it anew.".into()
            }
            Error::InvalidSecond => "The second sheet is damaged: take a sound copy of it, or write it anew.".into(),
            Error::InvalidMask => "The mask is damaged: take a sound copy of it, or write it anew.".into(),
            Error::InvalidOutput => {
                "The sheet to write into is damaged: take a sound copy of it, or lay it anew.".into()
            }
            Error::IndexOutOfBounds => format!(
                "A row or column lies past the edge of the sheet, or a list of them does not have 1 to {MAX_INDEXES} \
                 numbers, each once: count rows and columns from 0, stay within the sheet, and name none twice. Or \
                 more than {MAX_ALLOWANCE} rounds are allowed for opening doors: allow fewer."
            )
            .into(),
            Error::InvalidShape => format!(
                "The shapes do not fit: a sheet has 1 to {MAX_ROWS} rows and 1 to {MAX_COLS} columns, a strip has one \
                 row, and the sheets of one step must agree in shape."
            )
            .into(),
            Error::WorkspaceTooShort => {
                format!(
                "The work buffer is too short: give it at least {WORKSPACE_WORDS} words, and {FORMULA_WORDS} for a formula."
            )
            .into()
            }
            Error::TooManyEntries => format!(
                "The sheet would hold more than {MAX_ENTRIES} entries: clear some cells, or split it into two sheets."
            )
            .into(),
            Error::InsufficientSpace => {
                "The shelf has too little room for this: drop a sheet that is no longer needed, or take a longer shelf."
                    .into()
            }
            Error::InvalidStore => format!(
                "The place is not one of 0 to {last}, or the shelf is damaged or not {MIN_STORE_WORDS} to \
                 {MAX_STORE_WORDS} words long: name a place from 0 to {last}, or take a sound copy of the shelf."
            )
            .into(),
            Error::EmptySlot => "The place holds no sheet: lay one there first.".into(),
            Error::InvalidFormula => format!(
                "This is no formula: write places 0 to {last} joined by + and *, with round brackets where they are \
                 needed, at most {MAX_BRACKETS} open at once, no blanks, and at most {MAX_FORMULA_BYTES} signs."
            )
            .into(),
            Error::InvalidFile => format!(
                "This is no sheet file, or it is damaged or cut short: a sheet file has exactly its sheet's bytes, at most \
                 {MAX_FILE_BYTES}; take a sound copy of it."
            )
            .into(),
        }
    }
}

/// Names one after the other: `A, B and C`.
fn listed(names: impl Iterator<Item = &'static str>) -> String {
    let names: Vec<&str> = names.collect();
    match names.split_last() {
        Some((last, others)) if !others.is_empty() => format!("{} and {last}", others.join(", ")),
        _ => names.concat(),
    }
}

/// What is wrong and what to do about it, in a sentence or two.
impl fmt::Display for Error {
    fn fmt(&self, f: &mut fmt::Formatter<'_>) -> fmt::Result {
        f.pad(&self.sentence())
    }
}

impl std::error::Error for Error {}

#[cfg(test)]
mod tests {
    use super::*;

    #[test]
    fn the_sentence_for_2_names_every_operator() {
        let sentence = Error::UnknownOperator.to_string();
        let names = [
            ("two values", BinaryOp::ALL.iter().map(|op| op.name()).collect::<Vec<_>>()),
            ("to add up", Monoid::ALL.iter().map(|op| op.name()).collect()),
            ("one", UnaryOp::ALL.iter().map(|op| op.name()).collect()),
            ("rows", IndexUnaryOp::ALL.iter().map(|op| op.name()).collect()),
            ("select", SelectOp::ALL.iter().map(|op| op.name()).collect()),
        ];
        for (kind, names) in names {
            assert!(sentence.contains(kind));
            for name in names {
                assert!(sentence.split([' ', ',', ':', '(', ')']).any(|word| word == name), "{name}");
            }
        }
    }

    #[test]
    fn names_are_listed() {
        assert_eq!(listed(["A", "B", "C"].into_iter()), "A, B and C");
        assert_eq!(listed(["A"].into_iter()), "A");
    }
}
