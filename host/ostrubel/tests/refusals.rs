//! Every refusal but 10, which `limits` has. A refused call leaves the matrix or the store that it would write as it was.
//!
//! What the types of the API rule out is provoked by `ostrubel::calls`, to see that the numbers are the library's: flags
//! above 31 (1) and unknown operators (2), which the enums do not have; inputs, masks and outputs that are no valid
//! matrix (4, 5, 6, and 3 but for `Matrix::from_words`), since a `Matrix` is one; and a short workspace (9).

use ostrubel::calls::{self, OptionNumbers};
use ostrubel::{ApplyOp, BinaryOp, Error, Matrix, Monoid, Options, Semiring, Store, UnaryOp, WORKSPACE_WORDS};
use std::fmt::Debug;

const COPY: ApplyOp = ApplyOp::Unary(UnaryOp::Identity);
const PLUS_TIMES: Semiring = Semiring::new(Monoid::Plus, BinaryOp::Times);

/// The call is refused by the error and leaves its object as it was.
fn refused<T, R>(object: &mut T, error: Error, call: impl FnOnce(&mut T) -> Result<R, Error>)
where
    T: Debug,
    R: Debug + PartialEq,
{
    // Every word, that of the revision too.
    let before = format!("{object:?}");
    assert_eq!(call(object), Err(error));
    assert_eq!(format!("{object:?}"), before);
}

/// Three rows and two columns, with entries.
fn matrix() -> Result<Matrix, Error> {
    Matrix::from_triples(3, 2, [(0, 0, 1), (1, 1, 2), (2, 0, 3)])
}

/// Slots 0 and 1 have the matrix, slot 2 has one of another shape; there is room for one more entry.
fn store() -> Result<Store, Error> {
    let mut store = Store::new(8 + 18 + 18 + 13 + 2)?;
    store.put(0, &matrix()?)?;
    store.put(1, &matrix()?)?;
    store.put(2, &Matrix::from_triples(2, 2, [(1, 0, 4)])?)?;
    Ok(store)
}

fn code(answer: u64) -> Option<Error> {
    Error::from_number((answer & 255) as u32)
}

#[test]
fn r3_words_that_are_no_matrix() -> Result<(), Error> {
    let words = matrix()?.into_words();
    assert_eq!(Matrix::from_words(&[]), Err(Error::InvalidFirst));
    assert_eq!(Matrix::from_words(&words[..words.len() - 1]), Err(Error::InvalidFirst));
    assert_eq!(Matrix::from_words(&[u32::MAX; 50]), Err(Error::InvalidFirst));
    // Damage in each word but the revision and the values.
    for at in (0..words.len() - 3).filter(|&at| at != 1) {
        let mut damaged = words.clone();
        damaged[at] ^= 1 << 16;
        assert_eq!(Matrix::from_words(&damaged), Err(Error::InvalidFirst), "word {at}");
    }
    Ok(())
}

#[test]
fn r7_cells_and_rows_outside() -> Result<(), Error> {
    let matrix = matrix()?;
    assert_eq!(matrix.get(3, 0), Err(Error::IndexOutOfBounds));
    assert_eq!(matrix.get(0, 2), Err(Error::IndexOutOfBounds));
    assert_eq!(matrix.row(3).err(), Some(Error::IndexOutOfBounds));
    assert_eq!(Matrix::from_triples(3, 2, [(0, 2, 1)]), Err(Error::IndexOutOfBounds));
    assert_eq!(Matrix::from_triples(3, 2, [(u32::MAX, 0, 1)]), Err(Error::IndexOutOfBounds));

    let mut store = store()?;
    refused(&mut store, Error::IndexOutOfBounds, |store| store.set(0, 3, 0, 1));
    refused(&mut store, Error::IndexOutOfBounds, |store| store.clear(0, 0, 2));
    refused(&mut store, Error::IndexOutOfBounds, |store| store.get(0, u32::MAX, 0));
    Ok(())
}

#[test]
fn r7_index_lists() -> Result<(), Error> {
    let a = matrix()?;
    let mut c = a.clone();
    let too_long: Vec<u32> = (0..1_001).collect();
    let twice = [(&[0, 1, 0][..], &[0, 1][..]), (&[0, 1, 2], &[1, 1]), (&[2, 2], &[0])];
    let other = [(&[3][..], &[0][..]), (&[0], &[2]), (&[], &[0]), (&[0], &[]), (&too_long, &[0])];
    for (rows, cols) in twice.into_iter().chain(other) {
        refused(&mut c, Error::IndexOutOfBounds, |c| c.extract(&a, rows, cols, &Options::new()));
        refused(&mut store()?, Error::IndexOutOfBounds, |store| store.extract(0, 1, rows, cols, &Options::new()));
    }
    // The lists are held against A as transposed.
    refused(&mut c, Error::IndexOutOfBounds, |c| c.extract(&a, &[2], &[0], &Options::new().transpose_first()));
    Ok(())
}

#[test]
fn r8_shapes_of_matrices() -> Result<(), Error> {
    let (a, other) = (matrix()?, Matrix::new(2, 2)?);
    let mut c = a.clone();
    let none = Options::new();
    assert_eq!(Matrix::new(0, 1), Err(Error::InvalidShape));
    refused(&mut c, Error::InvalidShape, |c| c.mxm(PLUS_TIMES, &a, &a, &none));
    refused(&mut c, Error::InvalidShape, |c| c.vxm(PLUS_TIMES, &a, &other, &none));
    refused(&mut c, Error::InvalidShape, |c| c.ewise_mult(BinaryOp::Plus, &a, &other, &none));
    refused(&mut c, Error::InvalidShape, |c| c.ewise_add(BinaryOp::Plus, &other, &other, &none));
    refused(&mut c, Error::InvalidShape, |c| c.apply(COPY, &a, &none.transpose_first()));
    refused(&mut c, Error::InvalidShape, |c| c.apply(COPY, &a, &none.mask(&other)));
    refused(&mut c, Error::InvalidShape, |c| c.extract(&a, &[0], &[0], &none));
    Ok(())
}

#[test]
fn r8_shapes_on_a_store() -> Result<(), Error> {
    let mut store = store()?;
    let none = Options::new();
    refused(&mut store, Error::InvalidShape, |store| store.new_empty(0, 1_001, 1));
    refused(&mut store, Error::InvalidShape, |store| store.mxm(0, PLUS_TIMES, 0, 1, &none));
    refused(&mut store, Error::InvalidShape, |store| store.vxm(0, PLUS_TIMES, 0, 2, &none));
    refused(&mut store, Error::InvalidShape, |store| store.ewise_mult(0, BinaryOp::Plus, 0, 2, &none));
    refused(&mut store, Error::InvalidShape, |store| store.ewise_add(2, BinaryOp::Plus, 0, 1, &none));
    refused(&mut store, Error::InvalidShape, |store| store.apply(0, COPY, 1, &none.mask(2)));
    refused(&mut store, Error::InvalidShape, |store| store.extract(0, 1, &[0], &[0], &none));
    Ok(())
}

#[test]
fn r11_too_little_room() -> Result<(), Error> {
    let mut store = store()?;
    refused(&mut store, Error::InsufficientSpace, |store| store.new_empty(3, 2, 2));
    refused(&mut store, Error::InsufficientSpace, |store| store.put(3, &Matrix::new(2, 2)?));
    store.set(2, 0, 0, 5)?;
    refused(&mut store, Error::InsufficientSpace, |store| store.set(2, 1, 1, 6));
    let merge_transposed = Options::new().accumulate(BinaryOp::Plus).transpose_first();
    refused(&mut store, Error::InsufficientSpace, |store| store.apply(2, COPY, 2, &merge_transposed));
    Ok(())
}

#[test]
fn r12_no_store_or_no_slot() -> Result<(), Error> {
    assert_eq!(Store::new(7), Err(Error::InvalidStore));
    assert_eq!(Store::from_words(vec![1; 8]), Err(Error::InvalidStore));

    let mut store = store()?;
    let none = Options::new();
    for slot in [8, usize::MAX] {
        assert_eq!(store.matrix(slot), Err(Error::InvalidStore));
        assert_eq!(store.get(slot, 0, 0), Err(Error::InvalidStore));
        assert!(!store.occupied(slot));
        refused(&mut store, Error::InvalidStore, |store| store.new_empty(slot, 1, 1));
        refused(&mut store, Error::InvalidStore, |store| store.put(slot, &Matrix::new(1, 1)?));
        refused(&mut store, Error::InvalidStore, |store| store.drop_slot(slot));
        refused(&mut store, Error::InvalidStore, |store| store.set(slot, 0, 0, 1));
        refused(&mut store, Error::InvalidStore, |store| store.clear(slot, 0, 0));
        refused(&mut store, Error::InvalidStore, |store| store.apply(slot, COPY, 0, &none));
        refused(&mut store, Error::InvalidStore, |store| store.apply(0, COPY, 0, &none.mask(slot)));
        refused(&mut store, Error::InvalidStore, |store| store.ewise_add(0, BinaryOp::Plus, 0, slot, &none));
    }
    Ok(())
}

#[test]
fn r13_empty_slots() -> Result<(), Error> {
    let mut store = store()?;
    let none = Options::new();
    assert_eq!(store.matrix(5), Err(Error::EmptySlot));
    assert_eq!(store.get(5, 0, 0), Err(Error::EmptySlot));
    refused(&mut store, Error::EmptySlot, |store| store.set(5, 0, 0, 1));
    refused(&mut store, Error::EmptySlot, |store| store.clear(5, 0, 0));
    refused(&mut store, Error::EmptySlot, |store| store.mxm(0, PLUS_TIMES, 5, 0, &none));
    refused(&mut store, Error::EmptySlot, |store| store.ewise_mult(0, BinaryOp::Plus, 0, 5, &none));
    refused(&mut store, Error::EmptySlot, |store| store.apply(5, COPY, 0, &none));
    refused(&mut store, Error::EmptySlot, |store| store.apply(0, COPY, 1, &none.mask(5)));
    Ok(())
}

#[test]
fn numbers_that_the_types_rule_out() -> Result<(), Error> {
    let a = matrix()?.into_words();
    let call = |options, op, a: &[u32], b: &[u32], mask: &[u32], c: &[u32], work: usize| {
        code(calls::ewise_add(options, op, a, b, mask, &mut c.to_vec(), &mut vec![0; work]))
    };
    let none = OptionNumbers::default();
    let masked = OptionNumbers { has_mask: 1, ..none };
    let (bad, work) = (&[0; 20][..], WORKSPACE_WORDS);
    assert_eq!(call(none, 3, &a, &a, bad, &a, work), None);
    let flags_above = OptionNumbers { flags: 32, ..none };
    assert_eq!(call(flags_above, 3, &a, &a, bad, &a, work), Some(Error::FlagsOutOfRange));
    assert_eq!(call(none, 8, &a, &a, bad, &a, work), Some(Error::UnknownOperator));
    assert_eq!(call(none, 3, bad, &a, bad, &a, work), Some(Error::InvalidFirst));
    assert_eq!(call(none, 3, &a, bad, bad, &a, work), Some(Error::InvalidSecond));
    assert_eq!(call(masked, 3, &a, &a, bad, &a, work), Some(Error::InvalidMask));
    assert_eq!(call(masked, 3, &a, &a, &a, bad, work), Some(Error::InvalidOutput));
    assert_eq!(call(none, 3, &a, &a, bad, &a, work - 1), Some(Error::WorkspaceTooShort));
    Ok(())
}

#[test]
fn errors_have_numbers_and_sentences() {
    assert_eq!(Error::ALL.map(Error::number), [1, 2, 3, 4, 5, 6, 7, 8, 9, 10, 11, 12, 13, 14, 15]);
    for error in Error::ALL {
        assert_eq!(Error::from_number(error.number()), Some(error));
        let sentence = error.to_string();
        assert!(sentence.ends_with('.') && sentence.contains(": "), "{sentence}");
    }
    for number in [0, 16, 256, u32::MAX] {
        assert_eq!(Error::from_number(number), None);
    }
}

#[test]
fn sentences_have_the_limits() {
    for (error, part) in [
        (Error::IndexOutOfBounds, "does not have 1 to 1000 numbers, each once: "),
        (Error::InvalidShape, "a sheet has 1 to 1000 rows and 1 to 1000 columns, "),
        (Error::WorkspaceTooShort, "at least 15315 words, and 65000 for a formula."),
        (Error::TooManyEntries, "more than 2048 entries: "),
        (Error::InvalidFile, "at most 20420; "),
        (Error::InvalidStore, "not one of 0 to 7, or the shelf is damaged or not 8 to 16384 words long: "),
    ] {
        assert!(error.to_string().contains(part), "{error}");
    }
}
