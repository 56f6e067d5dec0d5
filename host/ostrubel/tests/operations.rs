//! Operators through the operations on matrices.

use ostrubel::{ApplyOp, BinaryOp, Error, IndexUnaryOp, Matrix, Monoid, Options, Semiring, UnaryOp};

/// A matrix of one cell.
fn cell(value: i32) -> Result<Matrix, Error> {
    Matrix::from_triples(1, 1, [(0, 0, value)])
}

#[test]
fn binary_operators() -> Result<(), Error> {
    let expected = [7, -3, 1, 4, 10, -21, -3, 7];
    for (&op, expected) in BinaryOp::ALL.iter().zip(expected) {
        let mut c = Matrix::new(1, 1)?;
        c.ewise_mult(op, &cell(7)?, &cell(-3)?, &Options::new())?;
        assert_eq!(c, cell(expected)?, "{op}");

        let mut accumulated = cell(7)?;
        let options = Options::new().accumulate(op);
        accumulated.apply(ApplyOp::Unary(UnaryOp::Identity), &cell(-3)?, &options)?;
        assert_eq!(accumulated, c, "{op} as accumulator");

        let mut scalar_first = Matrix::new(1, 1)?;
        scalar_first.apply(ApplyOp::ScalarFirst(7, op), &cell(-3)?, &Options::new())?;
        assert_eq!(scalar_first, c, "{op} with the scalar first");

        let mut scalar_second = Matrix::new(1, 1)?;
        scalar_second.apply(ApplyOp::ScalarSecond(op, -3), &cell(7)?, &Options::new())?;
        assert_eq!(scalar_second, c, "{op} with the scalar second");
    }
    Ok(())
}

#[test]
fn monoids() -> Result<(), Error> {
    let row = Matrix::from_triples(1, 3, [(0, 0, 2), (0, 1, -5), (0, 2, 4)])?;
    let column = Matrix::from_triples(3, 1, [(0, 0, 0), (1, 0, 0), (2, 0, 0)])?;
    let expected = [1, -40, -5, 4];
    for (&monoid, expected) in Monoid::ALL.iter().zip(expected) {
        let mut c = Matrix::new(1, 1)?;
        c.mxm(Semiring::new(monoid, BinaryOp::First), &row, &column, &Options::new())?;
        assert_eq!(c, cell(expected)?, "{monoid}");
    }
    Ok(())
}

#[test]
fn unary_operators() -> Result<(), Error> {
    let a = Matrix::from_triples(1, 2, [(0, 0, -6), (0, 1, 0)])?;
    let expected = [[-6, 0], [6, 0], [6, 0], [0, 1], [1, 1]];
    for (&op, [x, y]) in UnaryOp::ALL.iter().zip(expected) {
        let mut c = Matrix::new(1, 2)?;
        c.apply(ApplyOp::Unary(op), &a, &Options::new())?;
        assert_eq!(c.to_triples(), [(0, 0, x), (0, 1, y)], "{op}");
    }
    Ok(())
}

#[test]
fn index_operators() -> Result<(), Error> {
    let a = Matrix::from_triples(3, 6, [(2, 5, 99)])?;
    let expected = [2 - 100, 5 - 100, 5 - 2 - 100];
    for (&op, expected) in IndexUnaryOp::ALL.iter().zip(expected) {
        let mut c = Matrix::new(3, 6)?;
        c.apply(ApplyOp::Index(op, -100), &a, &Options::new())?;
        assert_eq!(c.to_triples(), [(2, 5, expected)], "{op}");
    }
    // "An entry stored at (2, 5) of a transposed input has row 5 and column 2"
    let expected = [5 - 100, 2 - 100, 2 - 5 - 100];
    for (&op, expected) in IndexUnaryOp::ALL.iter().zip(expected) {
        let mut c = Matrix::new(6, 3)?;
        c.apply(ApplyOp::Index(op, -100), &a, &Options::new().transpose_first())?;
        assert_eq!(c.to_triples(), [(5, 2, expected)], "{op}");
    }
    Ok(())
}

#[test]
fn extract_from_a_transposed_input() -> Result<(), Error> {
    let a = Matrix::from_triples(2, 3, [(0, 1, 4), (1, 2, 5)])?;
    let mut c = Matrix::new(3, 2)?;
    let transposed = Options::new().transpose_first();
    // The same index in both lists is fine.
    assert_eq!(c.extract(&a, &[2, 1, 0], &[1, 0], &transposed)?, 2);
    assert_eq!(c.to_triples(), [(0, 0, 5), (1, 1, 4)]);
    Ok(())
}

#[test]
fn one_matrix_as_both_inputs_and_mask() -> Result<(), Error> {
    let a = Matrix::from_triples(2, 2, [(0, 1, 3), (1, 0, 0)])?;
    let mut c = Matrix::new(2, 2)?;
    assert_eq!(c.ewise_add(BinaryOp::Plus, &a, &a, &Options::new().mask(&a))?, 1);
    assert_eq!(c.to_triples(), [(0, 1, 6)]);
    Ok(())
}

#[test]
fn a_smaller_result_leaves_no_spare_words() -> Result<(), Error> {
    let mut c = Matrix::from_triples(4, 4, (0..16).map(|k| (k / 4, k % 4, 1)))?;
    let empty = Matrix::new(4, 4)?;
    assert_eq!(c.apply(ApplyOp::Unary(UnaryOp::One), &empty, &Options::new())?, 0);
    assert_eq!((&c, c.words().len(), c.revision()), (&empty, empty.words().len(), 1));
    Ok(())
}

#[test]
fn operators_of_apply_as_text() {
    let scalars = [0, -1, i32::MIN, i32::MAX];
    let mut all: Vec<ApplyOp> = UnaryOp::ALL.iter().map(|&op| ApplyOp::Unary(op)).collect();
    for scalar in scalars {
        all.extend(BinaryOp::ALL.iter().map(|&op| ApplyOp::ScalarFirst(scalar, op)));
        all.extend(BinaryOp::ALL.iter().map(|&op| ApplyOp::ScalarSecond(op, scalar)));
        all.extend(IndexUnaryOp::ALL.iter().map(|&op| ApplyOp::Index(op, scalar)));
    }
    for op in all {
        assert_eq!(op.to_string().parse(), Ok(op));
        assert_eq!(format!("  {}\t", op.to_string().to_lowercase()).parse(), Ok(op));
    }
    let others = ["", "7", "plus", "abs 1", "1 abs", "1 rowindex", "plus plus", "1 2", "plus 1 2", "plus 4294967296"];
    for text in others {
        assert_eq!(text.parse::<ApplyOp>(), Err(Error::UnknownOperator), "{text:?}");
    }
}

#[test]
fn names() {
    assert_eq!(
        BinaryOp::ALL.iter().map(|op| op.name()).collect::<Vec<_>>().join(" "),
        "FIRST SECOND ONEB PLUS MINUS TIMES MIN MAX"
    );
    assert_eq!("rowIndex".parse(), Ok(IndexUnaryOp::RowIndex));
    assert_eq!("lnot".parse(), Ok(UnaryOp::Lnot));
    assert_eq!("minus".parse::<Monoid>(), Err(Error::UnknownOperator));
    assert_eq!("".parse::<BinaryOp>(), Err(Error::UnknownOperator));
    for text in ["plus", "plus.", ".times", "minus.times", "plus.times.times", "plus times"] {
        assert_eq!(text.parse::<Semiring>(), Err(Error::UnknownOperator), "{text}");
    }
    for &monoid in Monoid::ALL {
        for &op in BinaryOp::ALL {
            let semiring = Semiring::new(monoid, op);
            assert_eq!(semiring.to_string().parse(), Ok(semiring));
        }
    }
}
