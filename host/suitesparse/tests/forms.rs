//! Calls that leave the library's memory in forms that are not used here (`raw::objects` says which).

use suitesparse::{
    apply, ewise_add, ewise_mult, Apply, Binary, Descriptor, Matrix, Unary, WriteBack, COMPLEMENT, REPLACE,
};

type Triple = (u32, u32, i32);

/// A matrix of one column with all entries.
fn column(values: impl Iterator<Item = i32>) -> Matrix {
    let triples: Vec<Triple> = values.enumerate().map(|(i, value)| (i as u32, 0, value)).collect();
    Matrix::from_triples(triples.len() as u32, 1, &triples).unwrap()
}

fn values(matrix: &Matrix) -> Vec<i32> {
    matrix.triples().unwrap().into_iter().map(|(_, _, value)| value).collect()
}

#[test]
fn all_entries_into_a_c_of_equal_entries() {
    let (a, b, zeros) = (column(0..100), column((0..100).rev()), column((0..100).map(|_| 0)));
    let (plain, complement) = (Descriptor::new(0).unwrap(), Descriptor::new(COMPLEMENT).unwrap());
    for c in [column((0..100).map(|_| 5)), column((0..100).map(|_| 5)).duplicate().unwrap()] {
        let write = WriteBack { mask: None, accumulator: None, descriptor: &plain };
        ewise_mult(&c, write, Binary::Minus, &a, &b).unwrap();
        assert_eq!(values(&c), (0..100).map(|i| 2 * i - 99).collect::<Vec<_>>());
        apply(&c, write, Apply::Unary(Unary::One), &a).unwrap();
        ewise_add(&c, write, Binary::Minus, &a, &b).unwrap();
        assert_eq!(values(&c), (0..100).map(|i| 2 * i - 99).collect::<Vec<_>>());
        apply(&c, write, Apply::Unary(Unary::One), &a).unwrap();
        let write = WriteBack { mask: Some(&zeros), accumulator: None, descriptor: &complement };
        ewise_mult(&c, write, Binary::First, &a, &b).unwrap();
        assert_eq!(values(&c), (0..100).collect::<Vec<_>>());
    }
}

#[test]
fn few_entries_accumulated_through_a_mask_with_all_entries() {
    let all = || column((0..1600).map(|i| i + 1));
    let (c, mask) = (all(), all());
    let few = Matrix::from_triples(1600, 1, &[(0, 0, 1), (700, 0, 701)]).unwrap();
    let descriptor = Descriptor::new(0).unwrap();
    let write = WriteBack { mask: Some(&mask), accumulator: Some(Binary::Min), descriptor: &descriptor };
    apply(&c, write, Apply::Unary(Unary::Ainv), &few).unwrap();
    let expected: Vec<i32> = (1..=1600).map(|value| if [1, 701].contains(&value) { -value } else { value }).collect();
    assert_eq!(values(&c), expected);
}

#[test]
fn few_rows_with_entries_in_a_c_that_is_an_input() {
    let triples = [(3, 0, 5), (100, 1, 6), (399, 2, 7)];
    let (c, b) = (Matrix::from_triples(400, 5, &triples).unwrap(), Matrix::from_triples(400, 5, &triples).unwrap());
    let descriptor = Descriptor::new(REPLACE).unwrap();
    let write = WriteBack { mask: None, accumulator: None, descriptor: &descriptor };
    ewise_mult(&c, write, Binary::Plus, &c, &b).unwrap();
    assert_eq!(c.triples().unwrap(), [(3, 0, 10), (100, 1, 12), (399, 2, 14)]);
}
