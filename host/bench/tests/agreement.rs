//! The ordinary program and the library agree, word for word, on random calls: those that the second program makes.

use bench::ordinary;
use ostrubel::calls as library;
use second::calls::{LentCall, LentOperation, Operation, StoreCall, StoreOperation};
use second::days::{day_call, DayCall, Verb};
use second::doors::{doors, Doors};
use second::files;
use second::formulas::{single, Formula, Single};
use second::generate_lent::lent_call;
use second::generate_store::store_list;
use second::rng::Rng;

const SEED: u64 = 8;
const LENT_CALLS: u64 = 14_000;
const STORE_LISTS: u64 = 900;
const OTHER_CALLS: u64 = 4_000;

/// An answer, and the buffers that the call may have written.
type Outcome = (u64, Vec<Vec<u32>>);

/// The calls of the second program, carried out by the functions of a module.
macro_rules! program {
    ($name:ident, $calls:ident) => {
        mod $name {
            use super::*;

            pub fn lent(call: &LentCall, work: Vec<u32>) -> Outcome {
                match call {
                    LentCall::Check { words } => ($calls::check(words), Vec::new()),
                    LentCall::ReadCell { words, i, j } => ($calls::read_cell(*i, *j, words), Vec::new()),
                    LentCall::Reduce { words, monoid } => ($calls::reduce(*monoid, words), Vec::new()),
                    LentCall::RowView { first, second, i, values } => {
                        ($calls::row_view(*i, *values, first, second), Vec::new())
                    }
                    LentCall::NewEmpty { words, rows, cols } => {
                        let mut words = words.clone();
                        ($calls::new_empty(*rows, *cols, &mut words), vec![words])
                    }
                    LentCall::Operation(call) => operation(call, work),
                }
            }

            fn operation(call: &LentOperation, mut work_words: Vec<u32>) -> Outcome {
                let options = call.options.numbers();
                let [a, b, mask] = [call.a, call.b, call.mask].map(|role| call.inputs[role].as_slice());
                let mut c_words = call.c.clone();
                let (c, work) = (c_words.as_mut_slice(), work_words.as_mut_slice());
                let answer = match &call.operation {
                    Operation::Mxm { monoid, op } => $calls::mxm(options, *monoid, *op, a, b, mask, c, work),
                    Operation::Vxm { monoid, op } => $calls::vxm(options, *monoid, *op, a, b, mask, c, work),
                    Operation::EwiseMult { op } => $calls::ewise_mult(options, *op, a, b, mask, c, work),
                    Operation::EwiseAdd { op } => $calls::ewise_add(options, *op, a, b, mask, c, work),
                    Operation::Apply { kind, op, scalar } => {
                        $calls::apply(options, *kind, *op, *scalar, a, mask, c, work)
                    }
                    Operation::Extract { rows, cols } => $calls::extract(options, a, rows, cols, mask, c, work),
                    Operation::Select { op, scalar } => $calls::select(options, *op, *scalar, a, mask, c, work),
                    Operation::ReduceRows { monoid } => $calls::reduce_rows(options, *monoid, a, mask, c, work),
                    Operation::Assign { rows, cols } => $calls::assign(options, a, rows, cols, mask, c, work),
                    Operation::Kronecker { op } => $calls::kronecker(options, *op, a, b, mask, c, work),
                };
                (answer, vec![c_words, work_words])
            }

            pub fn store(words: &mut [u32], call: &StoreCall, work: Vec<u32>) -> (u64, Vec<u32>) {
                match call {
                    StoreCall::NewEmpty { slot, rows, cols } => {
                        ($calls::store_new_empty(*slot, *rows, *cols, words), Vec::new())
                    }
                    StoreCall::Drop { slot } => ($calls::store_drop(*slot, words), Vec::new()),
                    StoreCall::SetCell { slot, i, j, value } => {
                        ($calls::store_set_cell(*slot, *i, *j, *value, words), Vec::new())
                    }
                    StoreCall::ClearCell { slot, i, j } => ($calls::store_clear_cell(*slot, *i, *j, words), Vec::new()),
                    StoreCall::ReadCell { slot, i, j } => ($calls::store_read_cell(*slot, *i, *j, words), Vec::new()),
                    StoreCall::Reduce { slot, monoid } => ($calls::store_reduce(*slot, *monoid, words), Vec::new()),
                    StoreCall::Operation(call) => store_operation(words, call, work),
                }
            }

            fn store_operation(words: &mut [u32], call: &StoreOperation, mut work_words: Vec<u32>) -> (u64, Vec<u32>) {
                let options = call.options.numbers();
                let StoreOperation { a, b, mask, c, .. } = *call;
                let work = work_words.as_mut_slice();
                let answer = match &call.operation {
                    Operation::Mxm { monoid, op } => {
                        $calls::store_mxm(options, *monoid, *op, a, b, mask, c, words, work)
                    }
                    Operation::Vxm { monoid, op } => {
                        $calls::store_vxm(options, *monoid, *op, a, b, mask, c, words, work)
                    }
                    Operation::EwiseMult { op } => $calls::store_ewise_mult(options, *op, a, b, mask, c, words, work),
                    Operation::EwiseAdd { op } => $calls::store_ewise_add(options, *op, a, b, mask, c, words, work),
                    Operation::Apply { kind, op, scalar } => {
                        $calls::store_apply(options, *kind, *op, *scalar, a, mask, c, words, work)
                    }
                    Operation::Extract { rows, cols } => {
                        $calls::store_extract(options, a, mask, c, words, rows, cols, work)
                    }
                    Operation::Select { op, scalar } => {
                        $calls::store_select(options, *op, *scalar, a, mask, c, words, work)
                    }
                    Operation::ReduceRows { monoid } => {
                        $calls::store_reduce_rows(options, *monoid, a, mask, c, words, work)
                    }
                    Operation::Assign { rows, cols } => {
                        $calls::store_assign(options, a, mask, c, words, rows, cols, work)
                    }
                    Operation::Kronecker { op } => $calls::store_kronecker(options, *op, a, b, mask, c, words, work),
                };
                (answer, work_words)
            }

            pub fn day(call: &DayCall) -> Outcome {
                let DayCall { verb, row, base, new, .. } = call;
                let [mut day, mut marks, mut out] = [&call.day, &call.marks, &call.out].map(Vec::clone);
                let answer = match *verb {
                    Verb::Rewrite => $calls::day_rewrite(*row, new, &mut day, &mut marks),
                    Verb::Back => $calls::day_back(*row, &mut day, &mut marks),
                    Verb::Read { column } => $calls::day_read(*row, column, base, &day, &marks),
                    Verb::Fold => $calls::day_fold(base, &day, &marks, &mut out),
                    Verb::Show { values } => $calls::day_show(*row, values, base, &day, &marks),
                };
                (answer, vec![day, marks, out])
            }

            pub fn doors(call: &Doors) -> Outcome {
                let Doors { allowance, locks, cabinets, hand, .. } = call;
                let (mut out, mut work) = (call.out.clone(), call.work.words());
                let answer = $calls::open_doors(*allowance, locks, cabinets, hand, &mut out, &mut work);
                (answer, vec![out, work])
            }

            pub fn formula(call: &Single) -> Outcome {
                let Formula { target, monoid, op, text, stack } = &call.formula;
                let (mut store, mut stack) = (call.store.clone(), stack.words());
                let answer = $calls::store_formula(*target, *monoid, *op, text, &mut store, &mut stack);
                (answer, vec![store, stack])
            }

            /// A file is read, a matrix is written as a file and as a text.
            pub fn file(case: &files::Case) -> (Outcome, [(u64, Vec<u8>); 2]) {
                let (mut words, mut bytes, mut text) = (case.words.clone(), case.bytes.clone(), case.text.clone());
                let read = $calls::read_file(&case.file, &mut words);
                let written = $calls::write_file(&case.sheet, &mut bytes);
                let printed = $calls::write_text(&case.sheet, &mut text);
                ((read, vec![words]), [(written, bytes), (printed, text)])
            }
        }
    };
}

program!(by_library, library);
program!(by_ordinary, ordinary);

#[test]
fn calls_on_lent_matrices_agree() {
    let mut accepted = 0;
    for number in 0..LENT_CALLS {
        let call = lent_call(&mut Rng::of_case(SEED, 1, number));
        let work = match &call {
            LentCall::Operation(call) => call.work.words(),
            _ => Vec::new(),
        };
        let (expected, seen) = (by_library::lent(&call, work.clone()), by_ordinary::lent(&call, work));
        assert!(expected == seen, "seed {SEED}, call {number}: {}", call.name());
        accepted += u64::from(expected.0 & 255 == 0);
    }
    assert!(accepted * 4 > LENT_CALLS, "enough accepted calls: {accepted}");
}

#[test]
fn calls_on_a_store_agree() {
    let (mut calls, mut accepted) = (0, 0);
    for number in 0..STORE_LISTS {
        let list = store_list(&mut Rng::of_case(SEED, 2, number));
        let (mut expected_store, mut seen_store) = (list.store.clone(), list.store.clone());
        for call in &list.calls {
            let work = match call {
                StoreCall::Operation(call) => call.work.words(),
                _ => Vec::new(),
            };
            let expected = by_library::store(&mut expected_store, call, work.clone());
            let seen = by_ordinary::store(&mut seen_store, call, work);
            let same = expected == seen && expected_store == seen_store;
            assert!(same, "seed {SEED}, list {number}: {}", call.name());
            calls += 1;
            accepted += u64::from(expected.0 & 255 == 0);
        }
    }
    assert!(calls > 10_000 && accepted * 4 > calls, "enough calls: {calls}, {accepted} accepted");
}

/// Both carry out so many random calls, and give the same. At least a quarter is accepted.
fn agree<C, T: PartialEq>(name: &str, make: fn(&mut Rng) -> C, sides: [fn(&C) -> T; 2], accepts: fn(&T) -> bool) {
    let mut accepted = 0;
    for number in 0..OTHER_CALLS {
        let call = make(&mut Rng::of_case(SEED, 3, number));
        let [expected, seen] = sides.map(|side| side(&call));
        assert!(expected == seen, "seed {SEED}, call {number}: {name}");
        accepted += u64::from(accepts(&expected));
    }
    assert!(accepted * 4 > OTHER_CALLS, "enough accepted calls: {accepted}");
}

fn is_accepted(outcome: &Outcome) -> bool {
    outcome.0 & 255 == 0
}

#[test]
fn calls_on_a_day_matrix_agree() {
    agree("a day matrix", day_call, [by_library::day, by_ordinary::day], is_accepted);
}

#[test]
fn doors_agree() {
    agree("doors", doors, [by_library::doors, by_ordinary::doors], is_accepted);
}

#[test]
fn formulas_agree() {
    agree("a formula", single, [by_library::formula, by_ordinary::formula], is_accepted);
}

#[test]
fn files_agree() {
    let accepts = |(read, written): &(Outcome, [(u64, Vec<u8>); 2])| is_accepted(read) && written[0].0 & 255 == 0;
    agree("a file", files::case, [by_library::file, by_ordinary::file], accepts);
}
