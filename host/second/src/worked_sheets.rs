//! Document 01's worked sheets P1 to P12, through the model's calls on lent sheets.

use crate::calls::*;
use crate::grid::Grid;
use crate::model::SOUND;

fn grid(rows: u32, cols: u32, cells: &[(u32, u32, i32)]) -> Grid {
    let cells = cells.iter().map(|&(i, j, value)| ((i, j), value)).collect();
    Grid { cells, ..Grid::empty(rows, cols) }
}

fn strip(cells: &[(u32, i32)]) -> Grid {
    let cells: Vec<_> = cells.iter().map(|&(j, value)| (0, j, value)).collect();
    grid(1, 4, &cells)
}

fn the_strip() -> Grid {
    strip(&[(0, 10), (1, 20), (3, 40)])
}

fn plain() -> Options {
    Options { flags: 0, has_mask: false, has_accumulator: false, accumulator: 0, yes: 1 }
}

/// The final C of an accepted call, which also has to answer with its count.
fn run(operation: Operation, options: Options, inputs: [&Grid; 3], c: &Grid) -> Grid {
    let mut buffer = c.words();
    buffer.resize(100, 77);
    let call = LentOperation {
        operation,
        options,
        inputs: inputs.iter().map(|grid| grid.words()).collect(),
        a: 0,
        b: 1,
        mask: 2,
        c: buffer,
        work: Work { length: WORK_WORDS, seed: 1 },
    };
    let outcome = SOUND.lent(&LentCall::Operation(call));
    let words = &outcome.buffers[3].words;
    let result = Grid::read(words, SOUND.fault).expect("a valid sheet");
    assert_eq!(outcome.answer, counted(0, result.cells.len()));
    assert_eq!(outcome.buffers[4].words, vec![0; WORK_WORDS]);
    assert_eq!(result.revision, c.revision + 1);
    Grid { revision: 0, ..result }
}

#[test]
fn p1() {
    let cells = [(0, 1, 3), (0, 2, 2), (1, 0, 9), (1, 1, 6), (2, 1, 3), (2, 2, 1), (3, 0, 0), (3, 1, 5)];
    let b = grid(4, 3, &cells);
    let operation = Operation::Vxm { monoid: 3, op: 3 };
    let result = run(operation, plain(), [&the_strip(), &b, &b], &Grid::empty(1, 3));
    assert_eq!(result, grid(1, 3, &[(0, 0, 69), (0, 1, 84), (0, 2, 12)]));
}

#[test]
fn p2() {
    let a = the_strip();
    let operation = Operation::Apply { kind: 2, op: 4, scalar: 15 };
    assert_eq!(run(operation, plain(), [&a, &a, &a], &strip(&[])), strip(&[(0, -5), (1, 5), (3, 25)]));
}

#[test]
fn p3() {
    let a = the_strip();
    let operation = Operation::Apply { kind: 3, op: 1, scalar: 0 };
    assert_eq!(run(operation, plain(), [&a, &a, &a], &strip(&[])), strip(&[(0, 0), (1, 1), (3, 3)]));
}

/// Document 02, A5: "An entry stored at (2, 5) of a transposed input has row 5 and column 2".
#[test]
fn positions_after_transposing() {
    let a = grid(3, 6, &[(2, 5, 7)]);
    for (op, expected) in [(0, 5), (1, 2), (2, -3)] {
        let operation = Operation::Apply { kind: 3, op, scalar: 0 };
        let result = run(operation, Options { flags: TRANSPOSE_FIRST, ..plain() }, [&a, &a, &a], &Grid::empty(6, 3));
        assert_eq!(result, grid(6, 3, &[(5, 2, expected)]));
    }
}

#[test]
fn p4_to_p6() {
    let cases = [(3, i32::MAX, 1, i32::MIN), (5, 46_341, 46_341, -2_147_479_015), (5, 65_536, 65_536, 0)];
    for (op, x, y, expected) in cases {
        let (a, b) = (strip(&[(2, x)]), strip(&[(2, y)]));
        let result = run(Operation::EwiseMult { op }, plain(), [&a, &b, &b], &strip(&[]));
        assert_eq!(result, strip(&[(2, expected)]));
    }
}

#[test]
fn p7_to_p12() {
    let c = strip(&[(0, 1), (1, 2), (2, 3)]);
    let t = strip(&[(1, 9), (3, 9)]);
    let mask = strip(&[(0, 1), (1, 0), (3, 5)]);
    let identity = Operation::Apply { kind: 0, op: 0, scalar: 0 };
    let masked = Options { has_mask: true, ..plain() };
    let cases: [(Options, &[(u32, i32)]); 6] = [
        (masked.clone(), &[(1, 2), (2, 3), (3, 9)]),
        (Options { flags: REPLACE, ..masked.clone() }, &[(3, 9)]),
        (Options { flags: STRUCTURAL, ..masked.clone() }, &[(1, 9), (2, 3), (3, 9)]),
        (Options { flags: COMPLEMENT, ..masked.clone() }, &[(0, 1), (1, 9)]),
        (Options { has_accumulator: true, accumulator: 3, ..masked }, &[(0, 1), (1, 2), (2, 3), (3, 9)]),
        (Options { flags: COMPLEMENT + REPLACE, ..plain() }, &[]),
    ];
    for (number, (options, expected)) in cases.into_iter().enumerate() {
        let result = run(identity.clone(), options, [&t, &t, &mask], &c);
        assert_eq!(result, strip(expected), "P{}", number + 7);
    }
}
