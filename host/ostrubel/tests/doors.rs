//! Keys behind doors: rounds, limits and refusals.

use ostrubel::{Error, Matrix, MAX_ALLOWANCE, MAX_COLS, MAX_ROWS};

/// Key k opens door k, and key k + 1 is behind it; key 0 is in hand.
fn corridor(length: u32) -> Result<[Matrix; 3], Error> {
    Ok([
        Matrix::from_triples(length, length, (0..length).map(|k| (k, k, 0)))?,
        Matrix::from_triples(length, length, (1..length).map(|k| (k - 1, k, 0)))?,
        Matrix::from_triples(1, length, [(0, 0, 0)])?,
    ])
}

#[test]
fn a_round_for_each_door() -> Result<(), Error> {
    let [locks, cabinets, hand] = corridor(MAX_ROWS)?;
    for allowance in [0, 1, 998, 999, MAX_ALLOWANCE] {
        let doors = Matrix::open_doors(&locks, &cabinets, &hand, allowance)?;
        let open = MAX_COLS.min(allowance + 1);
        assert_eq!((doors.rows(), doors.cols()), (1, MAX_COLS));
        assert_eq!(doors.to_triples(), (0..open).map(|door| (0, door, door as i32)).collect::<Vec<_>>());
    }
    Ok(())
}

#[test]
fn more_rounds_than_keys_add_nothing() -> Result<(), Error> {
    let [locks, cabinets, hand] = corridor(7)?;
    let enough = Matrix::open_doors(&locks, &cabinets, &hand, 7)?;
    assert_eq!(enough.entries(), 7);
    for allowance in [8, 100, MAX_ALLOWANCE] {
        assert_eq!(Matrix::open_doors(&locks, &cabinets, &hand, allowance)?, enough);
    }
    Ok(())
}

#[test]
fn refusals() -> Result<(), Error> {
    let (locks, cabinets) = (Matrix::new(2, 3)?, Matrix::new(3, 2)?);
    let hand = Matrix::new(1, 2)?;
    assert_eq!(Matrix::open_doors(&locks, &cabinets, &hand, MAX_ALLOWANCE)?, Matrix::new(1, 3)?);
    let refused = |locks: &Matrix, cabinets: &Matrix, hand: &Matrix, allowance| {
        Matrix::open_doors(locks, cabinets, hand, allowance).unwrap_err()
    };
    assert_eq!(refused(&locks, &locks, &hand, MAX_ALLOWANCE + 1), Error::IndexOutOfBounds);
    assert_eq!(refused(&locks, &locks, &hand, 1), Error::InvalidShape);
    assert_eq!(refused(&locks, &cabinets, &Matrix::new(1, 3)?, 1), Error::InvalidShape);
    assert_eq!(refused(&locks, &cabinets, &Matrix::new(2, 2)?, 1), Error::InvalidShape);
    Ok(())
}
