//! All 32 sums of flags, with and without mask and accumulator, held against plain cells.

mod support;

use ostrubel::{BinaryOp, Descriptor, Error, Matrix, Monoid, Options, Semiring, Store};
use std::collections::BTreeMap;
use support::options;

const SIDE: u32 = 3;

type Cells = BTreeMap<(u32, u32), i32>;

fn cells(triples: &[(u32, u32, i32)]) -> Cells {
    triples.iter().map(|&(i, j, value)| ((i, j), value)).collect()
}

fn matrix(cells: &Cells) -> Result<Matrix, Error> {
    Matrix::from_triples(SIDE, SIDE, cells.iter().map(|(&(i, j), &value)| (i, j, value)))
}

/// The cells of the call: A, B, the mask and old C, with presence and absence, zeros and values in many combinations.
struct Inputs {
    a: Cells,
    b: Cells,
    mask: Cells,
    c: Cells,
}

fn inputs() -> Inputs {
    Inputs {
        a: cells(&[(0, 0, 1), (0, 1, 2), (1, 2, 3), (2, 0, 4)]),
        b: cells(&[(0, 1, 10), (1, 0, 20), (1, 2, 30), (2, 1, 40)]),
        mask: cells(&[(0, 0, 1), (0, 1, 0), (0, 2, -1), (1, 0, 0), (1, 1, 5), (2, 0, 1), (2, 2, 0)]),
        c: cells(&[(0, 0, 100), (0, 1, 200), (1, 1, 300), (1, 2, 400), (2, 1, 500), (2, 2, 600)]),
    }
}

fn transposed(cells: &Cells, is_due: bool) -> Cells {
    cells.iter().map(|(&(i, j), &value)| if is_due { ((j, i), value) } else { ((i, j), value) }).collect()
}

/// The union under MINUS.
fn difference(x: &Cells, y: &Cells) -> Cells {
    let mut result = x.clone();
    for (&position, &value) in y {
        result.entry(position).and_modify(|old| *old -= value).or_insert(value);
    }
    result
}

fn expected(inputs: &Inputs, flags: u32, has_mask: bool, has_accumulator: bool) -> Cells {
    let has = |flag: u32| flags & flag != 0;
    let t = difference(&transposed(&inputs.a, has(8)), &transposed(&inputs.b, has(16)));
    let z = if has_accumulator { difference(&inputs.c, &t) } else { t };
    let mut result = Cells::new();
    for position in (0..SIDE).flat_map(|i| (0..SIDE).map(move |j| (i, j))) {
        let counts = |&value: &i32| has(4) || value != 0;
        let is_inside = (!has_mask || inputs.mask.get(&position).is_some_and(counts)) != has(2);
        let source = if is_inside { Some(&z) } else { Some(&inputs.c).filter(|_| !has(1)) };
        if let Some(&value) = source.and_then(|cells| cells.get(&position)) {
            result.insert(position, value);
        }
    }
    result
}

fn descriptor(flags: u32) -> Descriptor {
    let mut descriptor = Descriptor::new();
    let steps = [
        Descriptor::replace,
        Descriptor::complement,
        Descriptor::structural,
        Descriptor::transpose_first,
        Descriptor::transpose_second,
    ];
    for (bit, step) in steps.into_iter().enumerate() {
        if flags >> bit & 1 == 1 {
            descriptor = step(descriptor);
        }
    }
    descriptor
}

#[test]
fn every_sum_of_flags() -> Result<(), Error> {
    let inputs = inputs();
    let (a, b, mask, c) = (matrix(&inputs.a)?, matrix(&inputs.b)?, matrix(&inputs.mask)?, matrix(&inputs.c)?);
    for case in 0..128 {
        let (flags, has_mask, has_accumulator) = (case & 31, case & 32 != 0, case & 64 != 0);
        let about = format!("flags {flags}, mask {has_mask}, accumulator {has_accumulator}");
        let expected = matrix(&expected(&inputs, flags, has_mask, has_accumulator))?;
        let accumulator = has_accumulator.then_some(BinaryOp::Minus);

        let mut written = c.clone();
        let by_matrix = options(has_mask.then_some(&mask), accumulator, descriptor(flags));
        assert_eq!(written.ewise_add(BinaryOp::Minus, &a, &b, &by_matrix)?, expected.entries(), "{about}");
        assert_eq!(written, expected, "{about}");

        let mut store = Store::new(200)?;
        for (slot, matrix) in [&a, &b, &mask, &c].into_iter().enumerate() {
            store.put(slot, matrix)?;
        }
        let by_slot = options(has_mask.then_some(2), accumulator, descriptor(flags));
        assert_eq!(store.ewise_add(3, BinaryOp::Minus, 0, 1, &by_slot)?, expected.entries(), "{about}");
        assert_eq!(store.matrix(3)?, expected, "{about}");
    }
    Ok(())
}

#[test]
fn a_descriptor_adds_up_its_flags() {
    for flags in 0..32 {
        assert_eq!(descriptor(flags).flags(), flags);
    }
    assert_eq!(Descriptor::new().replace().replace().flags(), 1);
    assert_eq!(Descriptor::default(), Descriptor::new());
}

#[test]
fn options_add_the_flags_of_a_descriptor() {
    let by_options: Options<usize> =
        Options::new().replace().complement().structural().transpose_first().transpose_second();
    assert_eq!(by_options, Options::new().descriptor(descriptor(31)));
    assert_eq!(
        Options::<usize>::new().descriptor(descriptor(1)).complement(),
        Options::new().descriptor(descriptor(3))
    );
    assert_eq!(by_options.descriptor(Descriptor::new()), Options::default());
}

#[test]
fn products_of_transposed_inputs() -> Result<(), Error> {
    let plus_times = Semiring::new(Monoid::Plus, BinaryOp::Times);
    let a = Matrix::from_triples(2, 3, [(0, 0, 1), (0, 2, 2), (1, 1, 3)])?;
    let mut c = Matrix::new(3, 3)?;
    c.mxm(plus_times, &a, &a, &Options::new().transpose_first())?;
    assert_eq!(c.to_triples(), [(0, 0, 1), (0, 2, 2), (1, 1, 9), (2, 0, 2), (2, 2, 4)]);
    let mut c = Matrix::new(2, 2)?;
    c.mxm(plus_times, &a, &a, &Options::new().transpose_second())?;
    assert_eq!(c.to_triples(), [(0, 0, 5), (1, 1, 9)]);

    // The vector of a product is never transposed.
    let u = Matrix::from_triples(1, 3, [(0, 2, 10)])?;
    let mut c = Matrix::new(1, 2)?;
    c.vxm(plus_times, &u, &a, &Options::new().transpose_first().transpose_second())?;
    assert_eq!(c.to_triples(), [(0, 0, 20)]);
    Ok(())
}
