//! Limits from both sides, and values at the ends of their range.

use ostrubel::{ApplyOp, BinaryOp, Error, Matrix, Options, Store, UnaryOp};
use ostrubel::{
    MAX_COLS, MAX_ENTRIES, MAX_INDEXES, MAX_MATRIX_WORDS, MAX_ROWS, MAX_STORE_WORDS, MIN_STORE_WORDS, WORKSPACE_WORDS,
};

/// So many cells of a matrix of 1,000 rows and columns, four in each row from row 300 on.
fn cells(count: usize) -> impl Iterator<Item = (u32, u32, i32)> {
    (0..count).map(|k| (300 + k as u32 / 4, k as u32 % 4 * 300, k as i32))
}

#[test]
fn sizes() {
    assert_eq!((MAX_ROWS, MAX_COLS, MAX_INDEXES, MAX_ENTRIES), (1_000, 1_000, 1_000, 2_048));
    assert_eq!((MAX_MATRIX_WORDS, WORKSPACE_WORDS), (5_105, 15_315));
}

#[test]
fn rows_and_columns() -> Result<(), Error> {
    let largest = Matrix::new(MAX_ROWS, MAX_COLS)?;
    assert_eq!((largest.rows(), largest.cols()), (1_000, 1_000));
    assert_eq!(Matrix::new(1, 1)?.words().len(), 10);
    for (rows, cols) in [(0, 1), (1, 0), (1_001, 1), (1, 1_001), (u32::MAX, 1), (1, u32::MAX)] {
        assert_eq!(Matrix::new(rows, cols), Err(Error::InvalidShape));
        assert_eq!(Matrix::from_triples(rows, cols, []), Err(Error::InvalidShape));
        assert_eq!(Store::new(2_000)?.new_empty(0, rows, cols), Err(Error::InvalidShape));
    }
    Ok(())
}

#[test]
fn entries_from_triples() -> Result<(), Error> {
    let full = Matrix::from_triples(1_000, 1_000, cells(MAX_ENTRIES))?;
    assert_eq!((full.entries(), full.words().len()), (2_048, MAX_MATRIX_WORDS));
    assert_eq!(full.to_triples(), cells(MAX_ENTRIES).collect::<Vec<_>>());
    assert_eq!(Matrix::from_words(full.words())?, full);

    let one_more = cells(MAX_ENTRIES).chain([(999, 999, 0)]);
    assert_eq!(Matrix::from_triples(1_000, 1_000, one_more), Err(Error::TooManyEntries));
    let one_twice = cells(MAX_ENTRIES).chain([(300, 0, 5)]);
    assert_eq!(Matrix::from_triples(1_000, 1_000, one_twice)?.get(300, 0)?, Some(5));
    Ok(())
}

#[test]
fn triples_without_end_are_refused() {
    let all_cells = (0..).map(|k: u32| (k / 1_000 % 1_000, k % 1_000, 1));
    assert_eq!(Matrix::from_triples(1_000, 1_000, all_cells), Err(Error::TooManyEntries));
}

#[test]
fn entries_of_an_operation() -> Result<(), Error> {
    let full = Matrix::from_triples(1_000, 1_000, cells(MAX_ENTRIES))?;
    let mut c = Matrix::new(1_000, 1_000)?;
    assert_eq!(c.ewise_add(BinaryOp::Plus, &full, &full, &Options::new())?, 2_048);

    let other = Matrix::from_triples(1_000, 1_000, [(999, 999, 1)])?;
    let before = c.clone();
    assert_eq!(c.ewise_add(BinaryOp::Plus, &full, &other, &Options::new()), Err(Error::TooManyEntries));
    assert_eq!(c, before);
    // A result of 2,049 entries of which the mask lets one in is accepted.
    let mut c = Matrix::new(1_000, 1_000)?;
    assert_eq!(c.ewise_add(BinaryOp::Plus, &full, &other, &Options::new().mask(&other))?, 1);
    Ok(())
}

#[test]
fn entries_of_a_cell_that_is_set() -> Result<(), Error> {
    let mut store = Store::new(MAX_STORE_WORDS)?;
    store.put(0, &Matrix::from_triples(1_000, 1_000, cells(MAX_ENTRIES - 1))?)?;
    assert_eq!(store.set(0, 999, 999, 1)?, 2_048);
    assert_eq!(store.set(0, 999, 998, 1), Err(Error::TooManyEntries));
    assert_eq!(store.set(0, 999, 999, 2)?, 2_048);
    Ok(())
}

#[test]
fn indexes_of_a_list() -> Result<(), Error> {
    let a = Matrix::from_triples(1, 1_000, (0..1_000).map(|j| (0, j, 3)))?;
    let list: Vec<u32> = (0..MAX_INDEXES as u32).collect();
    let too_long = [&list[..], &[0]].concat();
    let mut c = Matrix::new(1, 1_000)?;
    assert_eq!(c.extract(&a, &[0], &list, &Options::new())?, 1_000);
    assert_eq!(c.extract(&a, &[0], &too_long, &Options::new()), Err(Error::IndexOutOfBounds));
    assert_eq!(c.extract(&a, &[], &list, &Options::new()), Err(Error::IndexOutOfBounds));
    assert_eq!(c.extract(&a, &[0], &[1_000], &Options::new()), Err(Error::IndexOutOfBounds));

    let mut c = Matrix::new(1_000, 1)?;
    let transposed = Options::new().transpose_first();
    assert_eq!(c.extract(&a, &list, &[0], &transposed)?, 1_000);
    assert_eq!(c.extract(&a, &too_long, &[0], &transposed), Err(Error::IndexOutOfBounds));
    Ok(())
}

#[test]
fn words_of_a_store() -> Result<(), Error> {
    assert_eq!(Store::new(MIN_STORE_WORDS)?.words(), [0; 8]);
    assert_eq!(Store::new(MAX_STORE_WORDS)?.words().len(), 16_384);
    for words in [0, 7, 16_385, usize::MAX] {
        assert_eq!(Store::new(words), Err(Error::InvalidStore));
    }
    assert_eq!(Store::from_words(vec![0; 7]), Err(Error::InvalidStore));
    assert_eq!(Store::from_words(vec![0; 16_385]), Err(Error::InvalidStore));
    Ok(())
}

#[test]
fn a_store_one_word_short() -> Result<(), Error> {
    let matrix = Matrix::from_triples(2, 2, [(0, 0, 1), (1, 1, 2)])?;
    let needed = MIN_STORE_WORDS + matrix.words().len();
    let mut store = Store::new(needed)?;
    store.put(3, &matrix)?;
    assert_eq!(store.used_words(), needed);

    let mut short = Store::new(needed - 1)?;
    assert_eq!(short.put(3, &matrix), Err(Error::InsufficientSpace));
    short.new_empty(3, 2, 2)?;
    short.set(3, 0, 0, 1)?;
    assert_eq!(short.set(3, 1, 1, 2), Err(Error::InsufficientSpace));
    assert_eq!(short.set(3, 0, 0, 9), Ok(1));
    Ok(())
}

#[test]
fn values_at_the_ends_of_the_range() -> Result<(), Error> {
    let ends = [(0, 0, i32::MIN), (0, 1, i32::MAX), (1, 0, -1), (1, 1, 0)];
    let matrix = Matrix::from_triples(2, 2, ends)?;
    assert_eq!(matrix.to_triples(), ends);
    assert_eq!(Matrix::from_words(matrix.words())?.to_triples(), ends);

    let mut store = Store::new(100)?;
    store.new_empty(0, 2, 2)?;
    for (i, j, value) in ends {
        store.set(0, i, j, value)?;
        assert_eq!(store.get(0, i, j)?, Some(value));
        assert_eq!(matrix.get(i, j)?, Some(value));
    }
    assert_eq!(store.matrix(0)?, matrix);
    Ok(())
}

#[test]
fn scalars_and_operators_at_the_ends_of_the_range() -> Result<(), Error> {
    let cases = [
        (ApplyOp::Unary(UnaryOp::Ainv), i32::MIN, i32::MIN),
        (ApplyOp::Unary(UnaryOp::Abs), i32::MIN, i32::MIN),
        (ApplyOp::Unary(UnaryOp::Abs), -i32::MAX, i32::MAX),
        (ApplyOp::ScalarFirst(i32::MIN, BinaryOp::First), 1, i32::MIN),
        (ApplyOp::ScalarSecond(BinaryOp::Minus, 1), i32::MIN, i32::MAX),
        (ApplyOp::ScalarSecond(BinaryOp::Max, i32::MAX), i32::MIN, i32::MAX),
    ];
    for (op, value, expected) in cases {
        let mut c = Matrix::new(1, 1)?;
        c.apply(op, &Matrix::from_triples(1, 1, [(0, 0, value)])?, &Options::new())?;
        assert_eq!(c.get(0, 0)?, Some(expected), "{op:?}");
    }
    Ok(())
}
