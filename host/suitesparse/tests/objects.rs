//! Objects: what goes in comes out, and a wrong call is answered by an error.

use suitesparse::{
    ewise_add, extract, mxm, threads, version, vxm, Binary, Descriptor, Matrix, Monoid, Semiring, Vector, WriteBack,
};

fn plain(descriptor: &Descriptor) -> WriteBack<'_, Matrix> {
    WriteBack { mask: None, accumulator: None, descriptor }
}

#[test]
fn the_version_is_7_and_one_thread_is_used() {
    assert_eq!(version().unwrap()[0], 7);
    assert_eq!(threads(), Ok(1));
}

#[test]
fn triples_come_back_in_order() {
    let matrix = Matrix::from_triples(3, 4, &[(2, 1, 5), (0, 3, 0), (0, 0, i32::MIN)]).unwrap();
    assert_eq!(matrix.shape(), Ok((3, 4)));
    assert_eq!(matrix.entry_count(), Ok(3));
    assert_eq!(matrix.triples(), Ok(vec![(0, 0, i32::MIN), (0, 3, 0), (2, 1, 5)]));
    let vector = Vector::from_pairs(4, &[(3, 0), (1, -7)]).unwrap();
    assert_eq!(vector.size(), Ok(4));
    assert_eq!(vector.entry_count(), Ok(2));
    assert_eq!(vector.pairs(), Ok(vec![(1, -7), (3, 0)]));
}

#[test]
fn nothing_comes_back_from_nothing() {
    assert_eq!(Matrix::from_triples(2, 2, &[]).unwrap().triples(), Ok(vec![]));
    assert_eq!(Vector::from_pairs(2, &[]).unwrap().pairs(), Ok(vec![]));
}

#[test]
fn wrong_entries_are_errors() {
    assert!(Matrix::from_triples(2, 2, &[(1, 1, 5), (1, 1, 6)]).is_err());
    assert!(Matrix::from_triples(2, 2, &[(2, 1, 5)]).is_err());
    assert!(Vector::from_pairs(2, &[(1, 5), (1, 6)]).is_err());
    assert!(Vector::from_pairs(2, &[(2, 5)]).is_err());
}

#[test]
fn a_duplicate_is_a_matrix_of_its_own() {
    let old = Matrix::from_triples(1, 2, &[(0, 0, 1)]).unwrap();
    let new = old.duplicate().unwrap();
    let other = Matrix::from_triples(1, 2, &[(0, 1, 2)]).unwrap();
    let descriptor = Descriptor::new(0).unwrap();
    ewise_add(&new, plain(&descriptor), Binary::Plus, &old, &other).unwrap();
    assert_eq!(new.triples(), Ok(vec![(0, 0, 1), (0, 1, 2)]));
    assert_eq!(old.triples(), Ok(vec![(0, 0, 1)]));
    let vector = Vector::from_pairs(2, &[(1, 3)]).unwrap();
    assert_eq!(vector.duplicate().unwrap().pairs(), Ok(vec![(1, 3)]));
}

#[test]
fn every_semiring_and_every_sum_of_flags() {
    let descriptors: Vec<Descriptor> = (0..32).map(|flags| Descriptor::new(flags).unwrap()).collect();
    let a = Matrix::from_triples(2, 2, &[(0, 0, 7), (0, 1, -3), (1, 1, 2)]).unwrap();
    let u = Vector::from_pairs(2, &[(0, 7), (1, -3)]).unwrap();
    for &monoid in Monoid::ALL {
        for &op in Binary::ALL {
            let semiring = Semiring::new(monoid, op).unwrap();
            for descriptor in &descriptors {
                mxm(&a.duplicate().unwrap(), plain(descriptor), &semiring, &a, &a).unwrap();
                let write = WriteBack { mask: Some(&u), accumulator: Some(op), descriptor };
                vxm(&u.duplicate().unwrap(), write, &semiring, &u, &a).unwrap();
            }
        }
    }
}

#[test]
fn shapes_and_indexes_that_disagree_are_errors() {
    let descriptor = Descriptor::new(0).unwrap();
    let (a, b) = (Matrix::new(2, 3).unwrap(), Matrix::new(2, 2).unwrap());
    let error = ewise_add(&a, plain(&descriptor), Binary::Plus, &a, &b).unwrap_err();
    assert_eq!(error.to_string(), "GrB_Matrix_eWiseAdd_BinaryOp: dimension mismatch (-6)");
    let error = extract(&b, plain(&descriptor), &a, &[0, 2], &[0, 1]).unwrap_err();
    assert_eq!((error.call, error.info), ("GrB_Matrix_extract", -105));
}

#[test]
fn operators_have_their_numbers() {
    assert_eq!(Binary::numbered(4), Some(Binary::Minus));
    assert_eq!(Monoid::numbered(4), None);
    assert!(Binary::ALL.iter().all(|&op| Binary::numbered(op.number()) == Some(op)));
}
