//! What the words of a command stand for: whole numbers, index lists, operators.

use ostrubel::{BinaryOp, IndexUnaryOp, Monoid, SelectOp, Semiring, UnaryOp, MAX_INDEXES};
use std::fmt;
use std::iter;
use std::num::IntErrorKind;

/// A whole number; past 64 bits it counts as the largest or the smallest of 64 bits, and is shown as it was typed.
///
/// Whether it is in range is the library's to say. A number that has no place among the library's own is passed on as
/// the largest there is, which is out of range everywhere, so that it is refused by the same number.
#[derive(Clone, Debug, PartialEq, Eq)]
pub struct Whole {
    number: i64,
    /// What was typed, where that is past 64 bits.
    long: Option<String>,
}

impl Whole {
    fn new(number: i64) -> Whole {
        Whole { number, long: None }
    }

    pub fn parse(text: &str) -> Option<Whole> {
        let long = |number| Some(Whole { number, long: Some(text.to_string()) });
        match text.parse::<i64>() {
            Ok(number) => Some(Whole::new(number)),
            Err(error) => match error.kind() {
                IntErrorKind::PosOverflow => long(i64::MAX),
                IntErrorKind::NegOverflow => long(i64::MIN),
                _ => None,
            },
        }
    }

    /// As a slot, or as a count of words.
    pub fn size(&self) -> usize {
        usize::try_from(self.number).unwrap_or(usize::MAX)
    }

    /// As a row, a column, or a count of rows or columns.
    pub fn index(&self) -> u32 {
        u32::try_from(self.number).unwrap_or(u32::MAX)
    }
}

impl fmt::Display for Whole {
    fn fmt(&self, f: &mut fmt::Formatter<'_>) -> fmt::Result {
        match &self.long {
            Some(text) => text.fmt(f),
            None => self.number.fmt(f),
        }
    }
}

#[derive(Clone, Debug, PartialEq, Eq)]
pub enum IndexList {
    /// All rows or columns of the input, as transposed.
    All,
    /// At most one index more than the library takes: what is longer is refused all the same.
    Listed(Vec<Whole>),
}

impl IndexList {
    /// `all`, or indexes and ranges with both ends, joined by commas; no text is the list without indexes.
    pub fn parse(text: &str) -> Result<IndexList, String> {
        if text.eq_ignore_ascii_case("all") {
            return Ok(IndexList::All);
        }
        let mut indexes = Vec::new();
        if !text.is_empty() {
            for part in text.split(',') {
                let (first, last) = parse_range(part)?;
                let room = (MAX_INDEXES + 1).saturating_sub(indexes.len());
                let rest = (first.number..=last.number).skip(1).map(Whole::new);
                indexes.extend(iter::once(first).chain(rest).take(room));
            }
        }
        Ok(IndexList::Listed(indexes))
    }
}

/// `5..9` or `5`, which is `5..5`.
fn parse_range(text: &str) -> Result<(Whole, Whole), String> {
    let (first, last) = text.split_once("..").unwrap_or((text, text));
    match (Whole::parse(first), Whole::parse(last)) {
        (Some(first), Some(last)) if first.number <= last.number => Ok((first, last)),
        (Some(_), Some(_)) => Err(format!("the range {text} runs backwards")),
        _ => Err(format!("{text:?} is neither a whole number nor a range such as 5..9")),
    }
}

pub fn parse_binary(text: &str) -> Result<BinaryOp, String> {
    text.parse().map_err(|_| format!("no operator {text:?}: there are {}", binary_names()))
}

pub fn parse_semiring(text: &str) -> Result<Semiring, String> {
    text.parse().map_err(|_| {
        format!("no semiring {text:?}: it is one of {}, a dot, and one of {}", monoid_names(), binary_names())
    })
}

pub fn parse_monoid(text: &str) -> Result<Monoid, String> {
    text.parse().map_err(|_| format!("no monoid {text:?}: there are {}", monoid_names()))
}

/// The condition of a select, before its scalar is known.
pub fn parse_select(text: &str) -> Result<SelectOp, String> {
    SelectOp::named(text, 0).map_err(|_| {
        let names = joined(SelectOp::ALL.iter().map(|op| op.name()));
        format!("no condition {text:?}: there are {names}")
    })
}

/// The operator of an apply, before its scalar is known.
#[derive(Clone, Copy, Debug, PartialEq, Eq)]
pub enum ApplyName {
    Unary(UnaryOp),
    Binary(BinaryOp),
    Index(IndexUnaryOp),
}

pub fn parse_apply(text: &str) -> Result<ApplyName, String> {
    if let Ok(op) = text.parse() {
        Ok(ApplyName::Unary(op))
    } else if let Ok(op) = text.parse() {
        Ok(ApplyName::Binary(op))
    } else if let Ok(op) = text.parse() {
        Ok(ApplyName::Index(op))
    } else {
        let unary = joined(UnaryOp::ALL.iter().map(|op| op.name()));
        let index = joined(IndexUnaryOp::ALL.iter().map(|op| op.name()));
        Err(format!("no operator {text:?}: there are {unary}, {index}, {}", binary_names()))
    }
}

fn monoid_names() -> String {
    joined(Monoid::ALL.iter().map(|monoid| monoid.name()))
}

fn binary_names() -> String {
    joined(BinaryOp::ALL.iter().map(|op| op.name()))
}

fn joined(names: impl Iterator<Item = &'static str>) -> String {
    names.map(str::to_lowercase).collect::<Vec<_>>().join(", ")
}

#[cfg(test)]
mod tests {
    use super::*;

    fn listed(text: &str) -> Result<Vec<i64>, String> {
        match IndexList::parse(text)? {
            IndexList::All => panic!("{text} is a list"),
            IndexList::Listed(indexes) => Ok(indexes.into_iter().map(|index| index.number).collect()),
        }
    }

    #[test]
    fn whole_numbers_of_any_size() {
        assert_eq!(Whole::parse("7").map(|whole| whole.index()), Some(7));
        assert_eq!(Whole::parse("-1").map(|whole| whole.index()), Some(u32::MAX));
        assert_eq!(Whole::parse("4294967296").map(|whole| whole.index()), Some(u32::MAX));
        assert_eq!(Whole::parse("99999999999999999999999").map(|whole| whole.size()), Some(i64::MAX as usize));
        assert_eq!(Whole::parse("-99999999999999999999999").map(|whole| whole.size()), Some(usize::MAX));
        for text in ["7", "-1", "99999999999999999999999", "-99999999999999999999999"] {
            assert_eq!(Whole::parse(text).map(|whole| whole.to_string()).as_deref(), Some(text));
        }
        for text in ["", "-", "x", "1.5", " 1", "0x10", "1e3"] {
            assert_eq!(Whole::parse(text), None, "{text}");
        }
    }

    #[test]
    fn index_lists() {
        assert_eq!(IndexList::parse("ALL"), Ok(IndexList::All));
        assert_eq!(listed("0,2,5..9"), Ok(vec![0, 2, 5, 6, 7, 8, 9]));
        assert_eq!(listed("1,1,3..3"), Ok(vec![1, 1, 3]));
        assert_eq!(listed("-1"), Ok(vec![-1]));
        assert_eq!(listed(""), Ok(vec![]));
        for text in ["9..5", "1,", ",1", "1,all", "1...3", "..", "a", "1;2"] {
            assert!(listed(text).is_err(), "{text}");
        }
    }

    #[test]
    fn a_long_list_is_cut_behind_the_limit() {
        assert_eq!(listed("0..999").map(|list| list.len()), Ok(1_000));
        assert_eq!(listed("0..99999999999999999999,4").map(|list| list.len()), Ok(1_001));
    }

    #[test]
    fn operators_in_any_case() {
        assert_eq!(parse_binary("Max"), Ok(BinaryOp::Max));
        assert_eq!(parse_semiring("MIN.Plus"), Ok(Semiring::new(Monoid::Min, BinaryOp::Plus)));
        assert_eq!(parse_apply("colIndex"), Ok(ApplyName::Index(IndexUnaryOp::ColIndex)));
        assert_eq!(parse_apply("one"), Ok(ApplyName::Unary(UnaryOp::One)));
        assert_eq!(parse_apply("oneb"), Ok(ApplyName::Binary(BinaryOp::Oneb)));
        assert_eq!(parse_monoid("Times"), Ok(Monoid::Times));
        assert_eq!(parse_select("triL"), Ok(SelectOp::LowerTriangle(0)));
        assert!(parse_monoid("minus").is_err());
        assert!(parse_select("value").is_err());
        assert!(parse_semiring("minus.plus").is_err());
        assert!(parse_semiring("plus").is_err());
    }
}
