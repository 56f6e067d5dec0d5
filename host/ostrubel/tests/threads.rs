//! What a call asks of its thread: a stack of `STACK_BYTES`, and nothing that it shares with calls on other threads.

use ostrubel::calls::{self, OptionNumbers};
use ostrubel::{Error, Matrix, Store};
use ostrubel::{FORMULA_WORDS, MAX_FORMULA_BYTES, MAX_TEXT_BYTES, STACK_BYTES, WORKSPACE_WORDS};
use ostrubel::{MAX_ALLOWANCE, MAX_COLS, MAX_ENTRIES, MAX_FILE_BYTES, MAX_MATRIX_WORDS, MAX_ROWS, MAX_STORE_WORDS};
use std::thread;

const PLUS: u32 = 3;
const TIMES: u32 = 5;
/// Apply's kind of index operators, and one of them.
const INDEX: u32 = 3;
const DIAGINDEX: u32 = 2;
/// A condition of select.
const TRIL: u32 = 6;

/// A formula as long as any, with as many brackets open at once as there may be.
const FORMULA: &[u8] = b"3+3*(3+3*(3+3*(3+3*3+3*3+3*3+3*3+3*3+3*3+3*3+3*3+3*3+3*3+3*3)))";

/// A structural mask, an accumulator, and both inputs transposed.
const EVERYTHING: OptionNumbers =
    OptionNumbers { flags: 4 + 8 + 16, has_mask: 1, has_accumulator: 1, accumulator: PLUS };
const PLAIN: OptionNumbers = OptionNumbers { flags: 0, has_mask: 0, has_accumulator: 0, accumulator: 0 };
const TRANSPOSED: OptionNumbers = OptionNumbers { flags: 8 + 16, has_mask: 0, has_accumulator: 0, accumulator: 0 };

/// The buffers of calls at the largest shapes, all on the heap.
#[derive(Clone, Debug, PartialEq, Eq)]
struct Buffers {
    a: Vec<u32>,
    b: Vec<u32>,
    /// One row and one column.
    one: Vec<u32>,
    mask: Vec<u32>,
    vector: Vec<u32>,
    c: Vec<u32>,
    c_row: Vec<u32>,
    store: Vec<u32>,
    rows: Vec<u32>,
    cols: Vec<u32>,
    work: Vec<u32>,
    file: Vec<u8>,
    text: Vec<u8>,
    corridor: [Vec<u32>; 3],
    doors: Vec<u32>,
    stack: Vec<u32>,
    /// One entry in each row, and a mark for every other row.
    day: Vec<u32>,
    marks: Vec<u32>,
    folded: Vec<u32>,
}

/// Key k opens door k, and key k + 1 is behind it; key 0 is in hand. So each door takes a round.
fn corridor() -> Result<[Vec<u32>; 3], Error> {
    let locks = Matrix::from_triples(MAX_ROWS, MAX_COLS, (0..MAX_ROWS).map(|k| (k, k, 0)))?;
    let cabinets = Matrix::from_triples(MAX_ROWS, MAX_COLS, (1..MAX_ROWS).map(|k| (k - 1, k, 0)))?;
    let hand = Matrix::from_triples(1, MAX_ROWS, [(0, 0, 0)])?;
    Ok([locks, cabinets, hand].map(Matrix::into_words))
}

/// A matrix of the largest shape with so many entries; which ones and their values go by the seed.
fn matrix(entries: usize, seed: u32) -> Result<Matrix, Error> {
    let cell = |k: u32| (k * 7 % MAX_ROWS, (k / MAX_ROWS * 401 + k * 3 + seed) % MAX_COLS, (k * seed) as i32);
    Matrix::from_triples(MAX_ROWS, MAX_COLS, (0..entries as u32).map(cell))
}

fn long(words: Vec<u32>) -> Vec<u32> {
    let mut words = words;
    words.resize(MAX_MATRIX_WORDS, 0);
    words
}

impl Buffers {
    fn new(seed: u32) -> Result<Buffers, Error> {
        let (a, b, mask) = (matrix(MAX_ENTRIES, seed)?, matrix(MAX_ENTRIES, seed + 1)?, matrix(900, seed + 2)?);
        let vector = Matrix::from_triples(1, MAX_COLS, (0..MAX_COLS).map(|j| (0, j, (j + seed) as i32)))?;
        let mut store = Store::new(MAX_STORE_WORDS)?;
        for (slot, entries) in [(0, 1_700), (1, 1_700), (2, 900), (3, 20)] {
            store.put(slot, &matrix(entries, seed + slot as u32)?)?;
        }
        store.put(4, &Matrix::new(1, MAX_COLS)?)?;
        let one = Matrix::from_triples(1, 1, [(0, 0, seed as i32)])?;
        store.put(5, &one)?;
        let marks = Matrix::from_triples(1, MAX_ROWS, (0..MAX_ROWS).step_by(2).map(|j| (0, j, 0)))?;
        Ok(Buffers {
            a: a.into_words(),
            b: b.into_words(),
            one: one.into_words(),
            mask: mask.into_words(),
            vector: vector.into_words(),
            c: long(matrix(100, seed + 3)?.into_words()),
            c_row: long(Matrix::new(1, MAX_COLS)?.into_words()),
            store: store.into_words(),
            rows: (0..MAX_ROWS).rev().collect(),
            cols: (0..MAX_COLS).map(|k| k * 7 % MAX_COLS).collect(),
            work: vec![9; WORKSPACE_WORDS],
            file: vec![0; MAX_FILE_BYTES],
            text: vec![0; MAX_TEXT_BYTES],
            corridor: corridor()?,
            doors: vec![7; MAX_MATRIX_WORDS],
            stack: vec![9; FORMULA_WORDS],
            day: long(matrix(MAX_ROWS as usize, seed + 4)?.into_words()),
            marks: long(marks.into_words()),
            folded: vec![7; MAX_MATRIX_WORDS],
        })
    }

    /// Every call once; its answers. Those of the views of a row, which have no code, are the second list.
    fn run(&mut self) -> [Vec<u64>; 2] {
        let mut views = self.views();
        let mut answers = self.lent_calls();
        answers.extend(self.plain_calls());
        answers.extend(self.file_calls());
        answers.push(self.formula_call());
        answers.extend(self.store_calls());
        answers.push(self.doors_call());
        answers.extend(self.day_calls());
        views.extend(self.views());
        [answers, views]
    }

    fn views(&self) -> Vec<u64> {
        let Buffers { a, b, day, marks, .. } = self;
        vec![
            calls::row_view(999, 0, a, b),
            calls::day_show(998, 1, a, day, marks),
            calls::day_show(999, 0, a, day, marks),
        ]
    }

    /// Half of the rows are folded from the day matrix. Then a row that has no mark is rewritten with an entry in each
    /// column, and of two rows, one marked and one not, the rewrite is taken back.
    fn day_calls(&mut self) -> Vec<u64> {
        let Buffers { a, vector, day, marks, folded, .. } = self;
        vec![
            calls::day_fold(a, day, marks, folded),
            calls::day_rewrite(1, vector, day, marks),
            calls::day_back(998, day, marks),
            calls::day_back(999, day, marks),
            calls::day_read(1, 999, a, day, marks),
            calls::day_read(999, 999, a, day, marks),
            calls::day_fold(day, day, marks, folded),
        ]
    }

    fn doors_call(&mut self) -> u64 {
        let Buffers { corridor: [locks, cabinets, hand], doors, work, .. } = self;
        calls::open_doors(MAX_ALLOWANCE, locks, cabinets, hand, doors, work)
    }

    fn formula_call(&mut self) -> u64 {
        assert_eq!(FORMULA.len(), MAX_FORMULA_BYTES - 1); // the longest: a formula has an odd number of bytes
        calls::store_formula(3, PLUS, TIMES, FORMULA, &mut self.store, &mut self.stack)
    }

    fn lent_calls(&mut self) -> Vec<u64> {
        let Buffers { a, b, one, mask, vector, c, c_row, rows, cols, work, .. } = self;
        vec![
            calls::check(a),
            calls::read_cell(999, 999, a),
            calls::revision(a),
            calls::mxm(EVERYTHING, PLUS, TIMES, a, b, mask, c, work),
            calls::vxm(TRANSPOSED, PLUS, TIMES, vector, a, mask, c_row, work),
            calls::mxm_by_places(EVERYTHING, PLUS, TIMES, a, b, mask, c, work),
            calls::vxm_by_places(TRANSPOSED, PLUS, TIMES, vector, a, mask, c_row, work),
            calls::ewise_mult(EVERYTHING, TIMES, a, b, mask, c, work),
            calls::ewise_add(EVERYTHING, TIMES, a, b, mask, c, work),
            calls::apply(EVERYTHING, INDEX, DIAGINDEX, 5, a, mask, c, work),
            calls::extract(EVERYTHING, a, rows, cols, mask, c, work),
            calls::extract(TRANSPOSED, a, rows, cols, mask, c, work),
            calls::select(EVERYTHING, TRIL, 5, a, mask, c, work),
            calls::reduce_rows(TRANSPOSED, PLUS, a, mask, c_row, work),
            calls::assign(EVERYTHING, a, rows, cols, mask, c, work),
            calls::assign(TRANSPOSED, a, rows, cols, mask, c, work),
            calls::kronecker(EVERYTHING, TIMES, a, one, mask, c, work),
            calls::reduce(PLUS, a),
            calls::new_empty(MAX_ROWS, MAX_COLS, c_row),
        ]
    }

    /// Where C takes the result as it is: other buffers are on the stack.
    fn plain_calls(&mut self) -> Vec<u64> {
        let Buffers { a, b, one, mask, vector, c, rows, cols, work, .. } = self;
        let mut c_row = vec![0; MAX_MATRIX_WORDS];
        calls::new_empty(1, MAX_COLS, &mut c_row);
        vec![
            calls::vxm(PLAIN, PLUS, TIMES, vector, a, mask, &mut c_row, work),
            calls::vxm_by_places(PLAIN, PLUS, TIMES, vector, a, mask, &mut c_row, work),
            calls::ewise_mult(PLAIN, TIMES, a, b, mask, c, work),
            calls::apply(PLAIN, INDEX, DIAGINDEX, 5, a, mask, c, work),
            calls::extract(PLAIN, a, rows, cols, mask, c, work),
            calls::select(PLAIN, TRIL, 5, a, mask, c, work),
            calls::assign(PLAIN, a, rows, cols, mask, c, work),
            calls::kronecker(PLAIN, TIMES, one, a, mask, c, work),
        ]
    }

    fn file_calls(&mut self) -> Vec<u64> {
        let Buffers { a, c, file, text, .. } = self;
        vec![calls::write_file(a, file), calls::read_file(file, c), calls::write_text(c, text)]
    }

    fn store_calls(&mut self) -> Vec<u64> {
        let Buffers { store, rows, cols, work, .. } = self;
        vec![
            calls::store_mxm(EVERYTHING, PLUS, TIMES, 0, 1, 2, 3, store, work),
            calls::store_ewise_mult(EVERYTHING, TIMES, 0, 1, 2, 3, store, work),
            calls::store_ewise_add(EVERYTHING, TIMES, 0, 1, 2, 3, store, work),
            calls::store_apply(EVERYTHING, INDEX, DIAGINDEX, 5, 0, 2, 3, store, work),
            calls::store_extract(EVERYTHING, 0, 2, 3, store, rows, cols, work),
            calls::store_vxm(TRANSPOSED, PLUS, TIMES, 4, 0, 4, 4, store, work),
            calls::store_select(EVERYTHING, TRIL, 5, 0, 2, 3, store, work),
            calls::store_reduce_rows(TRANSPOSED, PLUS, 0, 4, 4, store, work),
            calls::store_assign(EVERYTHING, 0, 2, 3, store, rows, cols, work),
            calls::store_kronecker(EVERYTHING, TIMES, 0, 5, 2, 3, store, work),
            calls::store_reduce(0, PLUS, store),
            calls::store_set_cell(0, 500, 999, 7, store),
            calls::store_read_cell(0, 500, 999, store),
            calls::store_clear_cell(0, 500, 999, store),
            calls::store_drop(1, store),
            calls::store_new_empty(1, MAX_ROWS, MAX_COLS, store),
        ]
    }
}

#[test]
fn every_call_stays_within_the_stack() -> Result<(), Error> {
    let mut here = Buffers::new(1)?;
    let mut there = here.clone();
    let expected = here.run();
    // Refusals would be quick: there are none.
    assert_eq!(expected[0].iter().enumerate().find(|(_, answer)| *answer & 255 != 0), None);

    let thread = thread::Builder::new().stack_size(STACK_BYTES).spawn(move || (there.run(), there));
    let (answers, there) = thread.unwrap().join().unwrap();
    assert_eq!(answers, expected);
    assert!(there == here, "the same words");
    Ok(())
}

#[test]
fn threads_share_nothing() -> Result<(), Error> {
    let mut expected = Vec::new();
    let mut threads = Vec::new();
    for seed in 1..9 {
        let mut here = Buffers::new(seed)?;
        let there = here.clone();
        expected.push((here.run(), here));
        threads.push(there);
    }
    // All at once, several times, so that calls of one thread meet calls of others.
    let several = |buffers: Buffers| {
        let runs = (0..20).map(|_| {
            let mut buffers = buffers.clone();
            (buffers.run(), buffers)
        });
        runs.collect::<Vec<_>>()
    };
    let threads: Vec<_> = threads.into_iter().map(|buffers| thread::spawn(move || several(buffers))).collect();
    for (thread, expected) in threads.into_iter().zip(expected) {
        assert!(thread.join().unwrap().into_iter().all(|run| run == expected), "the same answers and words");
    }
    Ok(())
}
