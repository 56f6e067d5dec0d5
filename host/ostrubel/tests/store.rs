//! The calls of a store.

use ostrubel::{ApplyOp, BinaryOp, Error, Found, IndexUnaryOp, Matrix, Monoid, Options, Semiring, Store};
use ostrubel::{MAX_STORE_WORDS, SLOTS};

fn plus_times() -> Semiring {
    Semiring::new(Monoid::Plus, BinaryOp::Times)
}

fn square() -> Result<Matrix, Error> {
    Matrix::from_triples(2, 2, [(0, 0, 1), (0, 1, 2), (1, 1, 3)])
}

/// A store whose slot 0 has the square and slot 1 an empty matrix of its shape.
fn store() -> Result<Store, Error> {
    let mut store = Store::new(200)?;
    store.put(0, &square()?)?;
    store.new_empty(1, 2, 2)?;
    Ok(store)
}

#[test]
fn a_new_store_is_empty() -> Result<(), Error> {
    let store = Store::new(20)?;
    assert_eq!(store.words(), [0; 20]);
    assert_eq!(store.used_words(), 8);
    assert!((0..=SLOTS).all(|slot| !store.occupied(slot)));
    assert_eq!(Store::from_words(store.clone().into_words())?, store);
    Ok(())
}

#[test]
fn the_longest_store_is_the_default() -> Result<(), Error> {
    assert_eq!(Store::default(), Store::new(MAX_STORE_WORDS)?);
    assert_eq!(Store::default().to_string(), "8 of 16384 words are used");
    Ok(())
}

#[test]
fn a_store_is_drawn_slot_by_slot() -> Result<(), Error> {
    let mut store = store()?;
    store.put(7, &Matrix::from_triples(100, 1, [(99, 0, -1)])?)?;
    let expected = "slot 0:\n   0  1\n0  1  2\n1  .  3\nslot 1:\n   0  1\n0  .  .\n1  .  .\nslot 7:\n\
                    100 by 1, 1 entry\n99 0 -1\n";
    let words = format!("{} of {} words are used", store.used_words(), store.words().len());
    assert_eq!(store.to_string(), expected.to_string() + &words);
    Ok(())
}

#[test]
fn cells_are_set_read_and_cleared() -> Result<(), Error> {
    let mut store = Store::new(100)?;
    store.new_empty(7, 2, 3)?;
    assert_eq!(store.set(7, 1, 2, -4)?, 1);
    assert_eq!(store.set(7, 0, 1, 0)?, 2);
    assert_eq!(store.set(7, 1, 2, 5)?, 2);
    assert_eq!((store.get(7, 1, 2)?, store.get(7, 0, 1)?, store.get(7, 0, 0)?), (Some(5), Some(0), None));
    assert_eq!(store.find(7, 1, 2)?, Found::Present { value: 5, position: 1 });
    assert_eq!(store.find(7, 1, 0)?, Found::Absent { position: 1 });
    assert_eq!(store.find(6, 0, 0), Err(Error::EmptySlot));
    assert_eq!(store.clear(7, 0, 0)?, 2);
    assert_eq!(store.clear(7, 0, 1)?, 1);
    assert_eq!(store.get(7, 0, 1)?, None);
    assert_eq!(store.matrix(7)?.to_triples(), [(1, 2, 5)]);
    Ok(())
}

#[test]
fn slots_are_laid_and_dropped() -> Result<(), Error> {
    let mut store = store()?;
    assert_eq!((store.occupied(0), store.occupied(1), store.occupied(2)), (true, true, false));
    assert_eq!(store.used_words(), 8 + 17 + 11);
    store.drop_slot(0)?;
    store.drop_slot(0)?;
    assert_eq!((store.occupied(0), store.used_words()), (false, 8 + 11));
    assert_eq!(store.matrix(0), Err(Error::EmptySlot));
    store.new_empty(1, 5, 5)?;
    assert_eq!(store.matrix(1)?, Matrix::new(5, 5)?);
    Ok(())
}

#[test]
fn matrices_come_back_from_every_slot() -> Result<(), Error> {
    let mut store = Store::new(500)?;
    let of_slot = |slot: usize| Matrix::from_triples(3, 9, (0..slot as u32).map(|j| (j % 3, j, slot as i32)));
    for slot in [3, 0, 7, 5, 1, 2, 6, 4] {
        store.put(slot, &of_slot(slot)?)?;
    }
    for slot in 0..SLOTS {
        assert_eq!(store.matrix(slot)?, of_slot(slot)?);
    }
    assert_eq!(Store::from_words(store.words().to_vec())?, store);
    Ok(())
}

#[test]
fn put_writes_the_cells_that_laying_and_setting_write() -> Result<(), Error> {
    let matrix = Matrix::from_triples(4, 4, [(0, 3, 1), (2, 0, -2), (2, 2, 0), (3, 3, i32::MIN)])?;
    for slot in 0..SLOTS {
        let mut by_put = store()?;
        by_put.put(6, &square()?)?;
        let mut by_cells = by_put.clone();
        by_put.put(slot, &matrix)?;
        by_cells.new_empty(slot, 4, 4)?;
        for (i, j, value) in &matrix {
            by_cells.set(slot, i, j, value)?;
        }
        assert_eq!((by_put.revision(slot)?, by_cells.revision(slot)?), (0, 4));
        // The matrix that it gives, put back, brings its revision along.
        by_put.put(slot, &by_cells.matrix(slot)?)?;
        assert_eq!(by_put, by_cells, "slot {slot}");
    }
    Ok(())
}

#[test]
fn revisions_count_the_calls_that_write() -> Result<(), Error> {
    let mut store = store()?;
    let revisions = |store: &Store| [0, 1].map(|slot| store.revision(slot));
    assert_eq!(revisions(&store), [Ok(0), Ok(0)]);
    store.ewise_add(1, BinaryOp::Plus, 0, 0, &Options::new())?;
    assert_eq!(revisions(&store), [Ok(0), Ok(1)]);
    // Also where no position is inside, and once for a slot in several roles.
    store.ewise_add(1, BinaryOp::Plus, 1, 1, &Options::new().mask(1).complement())?;
    assert_eq!(revisions(&store), [Ok(0), Ok(2)]);
    assert!(store.set(1, 2, 0, 1).is_err() && store.vxm(1, plus_times(), 0, 1, &Options::new()).is_err());
    store.matrix(1)?;
    store.reduce(1, Monoid::Plus)?;
    assert_eq!(revisions(&store), [Ok(0), Ok(2)]);
    store.new_empty(1, 2, 2)?;
    store.drop_slot(0)?;
    assert_eq!(revisions(&store), [Err(Error::EmptySlot), Ok(0)]);
    assert_eq!(store.revision(SLOTS), Err(Error::InvalidStore));
    Ok(())
}

#[test]
fn a_put_that_does_not_fit_changes_nothing() -> Result<(), Error> {
    let matrix = square()?;
    let mut store = Store::new(8 + 17 + 16)?;
    store.put(2, &matrix)?;
    let before = store.clone();
    assert_eq!(store.put(3, &matrix), Err(Error::InsufficientSpace));
    assert_eq!(store, before);
    // Over the matrix that is there it fits.
    store.put(2, &Matrix::new(2, 2)?)?;
    store.put(3, &matrix)?;
    assert_eq!(store.matrix(3)?, matrix);
    Ok(())
}

#[test]
fn words_that_are_no_store_are_refused() -> Result<(), Error> {
    let good = store()?.into_words();
    // The count of a slot, a row's start, a word after the sections.
    for at in [0, 7, good.len() - 1] {
        let mut words = good.clone();
        words[at] += 1;
        assert_eq!(Store::from_words(words), Err(Error::InvalidStore), "word {at}");
    }
    assert_eq!(Store::from_words(vec![u32::MAX; 100]), Err(Error::InvalidStore));
    assert_eq!(Store::from_words(Vec::new()), Err(Error::InvalidStore));
    Ok(())
}

#[test]
fn mxm_and_vxm() -> Result<(), Error> {
    let plus_times = plus_times();
    let mut store = store()?;
    assert_eq!(store.mxm(1, plus_times, 0, 0, &Options::new())?, 3);
    assert_eq!(store.matrix(1)?.to_triples(), [(0, 0, 1), (0, 1, 8), (1, 1, 9)]);

    store.put(2, &Matrix::from_triples(1, 2, [(0, 0, 5), (0, 1, 7)])?)?;
    assert_eq!(store.vxm(2, plus_times, 2, 0, &Options::new())?, 2);
    assert_eq!(store.matrix(2)?.to_triples(), [(0, 0, 5), (0, 1, 31)]);
    Ok(())
}

#[test]
fn ewise_mult_and_ewise_add() -> Result<(), Error> {
    let mut store = store()?;
    store.put(2, &Matrix::from_triples(2, 2, [(0, 1, 10), (1, 0, 20)])?)?;
    assert_eq!(store.ewise_mult(1, BinaryOp::Minus, 0, 2, &Options::new())?, 1);
    assert_eq!(store.matrix(1)?.to_triples(), [(0, 1, -8)]);
    assert_eq!(store.ewise_add(1, BinaryOp::Minus, 0, 2, &Options::new())?, 4);
    assert_eq!(store.matrix(1)?.to_triples(), [(0, 0, 1), (0, 1, -8), (1, 0, 20), (1, 1, 3)]);
    Ok(())
}

#[test]
fn apply_and_extract() -> Result<(), Error> {
    let mut store = store()?;
    assert_eq!(store.apply(1, ApplyOp::Index(IndexUnaryOp::DiagIndex, 10), 0, &Options::new())?, 3);
    assert_eq!(store.matrix(1)?.to_triples(), [(0, 0, 10), (0, 1, 11), (1, 1, 10)]);
    assert_eq!(store.extract(1, 0, &[1, 0], &[1, 0], &Options::new())?, 3);
    assert_eq!(store.matrix(1)?.to_triples(), [(0, 0, 3), (1, 0, 2), (1, 1, 1)]);
    Ok(())
}

#[test]
fn one_slot_has_all_roles() -> Result<(), Error> {
    let mut store = store()?;
    let options = Options::new().mask(0).accumulate(BinaryOp::Plus).replace().transpose_second();
    assert_eq!(store.ewise_add(0, BinaryOp::Times, 0, 0, &options)?, 3);
    // T is 1, 2; 2, 9. Inside the mask old C is added, and (1, 0) is outside.
    assert_eq!(store.matrix(0)?.to_triples(), [(0, 0, 2), (0, 1, 4), (1, 1, 12)]);
    Ok(())
}
