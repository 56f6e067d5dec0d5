//! A day matrix over a base matrix, through the crate's types.

use ostrubel::{DayOver, Error, Found, Matrix, Section};

fn base() -> Matrix {
    Matrix::from_triples(3, 2, [(0, 0, 10), (1, 0, 11), (2, 1, 12)]).expect("a matrix")
}

#[test]
fn rewritten_rows_are_shown_and_taken_back() -> Result<(), Error> {
    let base = base();
    let mut over = DayOver::new(&base)?;
    assert_eq!(over.fold()?, base);
    assert_eq!(over.rewrite(1, &Matrix::from_triples(1, 2, [(0, 0, 1), (0, 1, 2)])?)?, 2);
    assert_eq!(over.rewrite(2, &Matrix::new(1, 2)?)?, 2);
    assert_eq!(over.find(1, 1)?, Found::Present { value: 2, position: 1 });
    assert_eq!(over.find(2, 1)?, Found::Absent { position: 2 });
    assert_eq!(over.row(1, Section::Columns), [0, 1]);
    assert!(over.row(2, Section::Columns).is_empty());
    assert!(over.row(3, Section::Columns).is_empty());
    assert_eq!(over.fold()?.to_triples(), [(0, 0, 10), (1, 0, 1), (1, 1, 2)]);
    assert_eq!(over.marks().to_triples(), [(0, 1, 1), (0, 2, 1)]);
    assert_eq!(over.take_back(1)?, 0);
    assert_eq!(over.take_back(2)?, 0);
    assert_eq!(over.fold()?, base);
    Ok(())
}

#[test]
fn a_mark_counts_whatever_its_value() -> Result<(), Error> {
    let base = base();
    let marks = Matrix::from_triples(1, 3, [(0, 2, 0)])?;
    let over = DayOver::from_parts(&base, Matrix::new(3, 2)?, marks);
    assert_eq!(over.get(2, 1)?, None);
    assert_eq!(over.get(1, 0)?, Some(11));
    Ok(())
}

#[test]
fn refused_calls_change_nothing() -> Result<(), Error> {
    let base = base();
    let mut over = DayOver::new(&base)?;
    let before = over.clone();
    let row = Matrix::from_triples(1, 2, [(0, 1, 5)])?;
    assert_eq!(over.rewrite(3, &row), Err(Error::IndexOutOfBounds));
    assert_eq!(over.rewrite(0, &base), Err(Error::InvalidShape));
    assert_eq!(over.take_back(3), Err(Error::IndexOutOfBounds));
    assert_eq!(over.get(0, 2), Err(Error::IndexOutOfBounds));
    assert_eq!(over, before);
    let other = Matrix::new(1, 2)?;
    let misfit = DayOver::from_parts(&base, Matrix::new(3, 2)?, other);
    assert_eq!(misfit.get(0, 0), Err(Error::InvalidShape));
    assert_eq!(misfit.fold(), Err(Error::InvalidShape));
    assert!(misfit.row(0, Section::Values).is_empty());
    Ok(())
}
