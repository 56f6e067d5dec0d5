//! Where SuiteSparse computes by other rules than the papers', found by running. What both have in common is compared at
//! random by `peer`.

use suitesparse::{
    apply, apply_index, extract, Apply, Binary, Descriptor, IndexUnary, Matrix, Vector, WriteBack, TRANSPOSE_FIRST,
    TRANSPOSE_SECOND,
};

const LEAST: i32 = i32::MIN;
const MOST: i32 = i32::MAX;

type Triple = (u32, u32, i32);

fn matrix(rows: u32, cols: u32, triples: &[Triple]) -> Matrix {
    Matrix::from_triples(rows, cols, triples).unwrap()
}

fn plain(descriptor: &Descriptor) -> WriteBack<'_, Matrix> {
    WriteBack { mask: None, accumulator: None, descriptor }
}

/// The result of an apply to A under these flags, in a C of this shape; none if the shape is wrong.
fn applied(kind: Apply, flags: u32, a: &Matrix, (rows, cols): (u64, u64)) -> Option<Vec<Triple>> {
    let c = Matrix::new(rows, cols).unwrap();
    let descriptor = Descriptor::new(flags).unwrap();
    apply(&c, plain(&descriptor), kind, a).ok()?;
    Some(c.triples().unwrap())
}

#[test]
fn diagindex_takes_the_scalar_away() {
    let a = matrix(3, 4, &[(0, 3, 7), (2, 0, 7)]);
    let diagonal = |scalar| applied(Apply::IndexUnary(IndexUnary::DiagIndex, scalar), 0, &a, (3, 4)).unwrap();
    assert_eq!(diagonal(0), [(0, 3, 3), (2, 0, -2)]);
    assert_eq!(diagonal(100), [(0, 3, -97), (2, 0, -102)]);
    // Which wraps, so that the negative of any scalar gives document 01's value.
    assert_eq!(diagonal(-100), [(0, 3, 103), (2, 0, 98)]);
    assert_eq!(diagonal(LEAST), [(0, 3, LEAST + 3), (2, 0, MOST - 1)]);
    assert_eq!(diagonal(-MOST), [(0, 3, LEAST + 2), (2, 0, MOST - 2)]);
}

#[test]
fn with_the_scalar_first_the_matrix_is_the_second_input() {
    let a = matrix(2, 3, &[(0, 2, 7)]);
    let first = Apply::ScalarFirst(Binary::Minus, 10);
    assert_eq!(applied(first, TRANSPOSE_FIRST, &a, (2, 3)), Some(vec![(0, 2, 3)]));
    assert_eq!(applied(first, TRANSPOSE_FIRST, &a, (3, 2)), None);
    assert_eq!(applied(first, TRANSPOSE_SECOND, &a, (3, 2)), Some(vec![(2, 0, 3)]));
    assert_eq!(applied(first, TRANSPOSE_SECOND, &a, (2, 3)), None);
    let second = Apply::ScalarSecond(Binary::Minus, 10);
    assert_eq!(applied(second, TRANSPOSE_FIRST, &a, (3, 2)), Some(vec![(2, 0, -3)]));
    assert_eq!(applied(second, TRANSPOSE_SECOND, &a, (2, 3)), Some(vec![(0, 2, -3)]));
}

#[test]
fn the_index_of_a_vector_is_its_row() {
    let descriptor = Descriptor::new(0).unwrap();
    let u = Vector::from_pairs(4, &[(0, 10), (1, 20), (3, 40)]).unwrap();
    let index = |op| {
        let w = Vector::new(4).unwrap();
        apply_index(&w, WriteBack { mask: None, accumulator: None, descriptor: &descriptor }, op, 5, &u).unwrap();
        w.pairs().unwrap()
    };
    assert_eq!(index(IndexUnary::RowIndex), [(0, 5), (1, 6), (3, 8)]);
    assert_eq!(index(IndexUnary::ColIndex), [(0, 5), (1, 5), (3, 5)]);
    // As a matrix of one row it is the other way round.
    let a = matrix(1, 4, &[(0, 0, 10), (0, 1, 20), (0, 3, 40)]);
    let index = |op| applied(Apply::IndexUnary(op, 5), 0, &a, (1, 4)).unwrap();
    assert_eq!(index(IndexUnary::RowIndex), [(0, 0, 5), (0, 1, 5), (0, 3, 5)]);
    assert_eq!(index(IndexUnary::ColIndex), [(0, 0, 5), (0, 1, 6), (0, 3, 8)]);
}

#[test]
fn an_index_may_repeat() {
    let (c, descriptor) = (Matrix::new(2, 3).unwrap(), Descriptor::new(TRANSPOSE_FIRST).unwrap());
    extract(&c, plain(&descriptor), &matrix(2, 3, &[(0, 2, 7), (1, 2, 0)]), &[2, 2], &[1, 0, 1]).unwrap();
    assert_eq!(c.triples().unwrap(), [(0, 0, 0), (0, 1, 7), (0, 2, 0), (1, 0, 0), (1, 1, 7), (1, 2, 0)]);
}
