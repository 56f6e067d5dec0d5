//! The numbers of the API are those of `include/ostrubel.h`.

use ostrubel::{BinaryOp, Descriptor, Error, IndexUnaryOp, Monoid, SelectOp, UnaryOp};

const HEADER: &str = include_str!("../../../include/ostrubel.h");

/// The number that the header defines by a name, as `NAME = 1` or `#define NAME 1`.
fn number(name: &str) -> Option<u32> {
    let full_name = format!("OSTRUBEL_{name}");
    let words: Vec<&str> = HEADER.split_whitespace().filter(|&word| word != "=").collect();
    let at = words.iter().position(|&word| word == full_name)?;
    words.get(at + 1)?.trim_end_matches(',').parse().ok()
}

/// `EmptySlot` as `EMPTY_SLOT`.
fn header_name(error: Error) -> String {
    let mut name = String::new();
    for letter in format!("{error:?}").chars() {
        if letter.is_uppercase() && !name.is_empty() {
            name.push('_');
        }
        name.push(letter.to_ascii_uppercase());
    }
    name
}

#[test]
fn limits() {
    let limits = [
        ("MAX_ROWS", ostrubel::MAX_ROWS as usize),
        ("MAX_COLS", ostrubel::MAX_COLS as usize),
        ("MAX_ENTRIES", ostrubel::MAX_ENTRIES),
        ("MAX_INDEXES", ostrubel::MAX_INDEXES),
        ("SLOTS", ostrubel::SLOTS),
        ("MAX_ALLOWANCE", ostrubel::MAX_ALLOWANCE as usize),
        ("MIN_STORE_WORDS", ostrubel::MIN_STORE_WORDS),
        ("MAX_STORE_WORDS", ostrubel::MAX_STORE_WORDS),
        ("MAX_MATRIX_WORDS", ostrubel::MAX_MATRIX_WORDS),
        ("MIN_WORKSPACE_WORDS", ostrubel::WORKSPACE_WORDS),
        ("STACK_BYTES", ostrubel::STACK_BYTES),
        ("MAX_FILE_BYTES", ostrubel::MAX_FILE_BYTES),
        ("MAX_TEXT_BYTES", ostrubel::MAX_TEXT_BYTES),
        ("MIN_FORMULA_WORDS", ostrubel::FORMULA_WORDS),
        ("MAX_FORMULA_BYTES", ostrubel::MAX_FORMULA_BYTES),
        ("MAX_BRACKETS", ostrubel::MAX_BRACKETS),
    ];
    for (name, limit) in limits {
        assert_eq!(number(name).map(|number| number as usize), Some(limit), "{name}");
    }
}

#[test]
fn errors() {
    for error in Error::ALL {
        assert_eq!(number(&header_name(error)), Some(error.number()), "{error:?}");
    }
}

#[test]
fn operators() {
    for op in BinaryOp::ALL {
        assert_eq!(number(op.name()), Some(op.number()), "{op}");
    }
    for op in SelectOp::ALL {
        assert_eq!(number(op.name()), Some(op.number()), "{op:?}");
    }
    for monoid in Monoid::ALL {
        assert_eq!(number(monoid.name()), Some(monoid.number()), "{monoid}");
    }
    for op in UnaryOp::ALL {
        assert_eq!(number(op.name()), Some(op.number()), "{op}");
    }
    for op in IndexUnaryOp::ALL {
        assert_eq!(number(op.name()), Some(op.number()), "{op}");
    }
}

#[test]
fn flags() {
    let none = Descriptor::new();
    let flags = [
        ("REPLACE", none.replace()),
        ("COMPLEMENT", none.complement()),
        ("STRUCTURAL", none.structural()),
        ("TRANSPOSE_FIRST", none.transpose_first()),
        ("TRANSPOSE_SECOND", none.transpose_second()),
    ];
    for (name, descriptor) in flags {
        assert_eq!(number(name), Some(descriptor.flags()), "{name}");
    }
}
