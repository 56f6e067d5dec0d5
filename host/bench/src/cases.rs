//! What is measured: each case is a call with its inputs, by all sides that have it.

use crate::entries::Entries;
use crate::jobs::{
    library, ordinary, Buffers, DayCall, DayJob, Job, LentJob, Operation, Program, ProgramSubject, StoreCall, PLUS,
    REPLACE, STORE_WORDS, STRUCTURAL, TRANSPOSE_FIRST, WORK_WORDS,
};
use crate::peer::{self, Peer};
use crate::scene::{corridor, full_row, Scene, Size, SIZES};
use crate::timing::Subject;
use ostrubel::calls::OptionNumbers;
use ostrubel::{Store, MAX_ROWS, SLOTS};
use std::rc::Rc;

/// The table that a case is in.
#[derive(Clone, Copy, Debug, PartialEq, Eq)]
pub enum Section {
    Parts,
    /// The cells of one row, read one by one.
    Row,
    Lent(Size),
    Store(Size),
    /// A day matrix over a base matrix.
    Day(Size),
    /// Files and texts.
    Files,
    /// Keys behind doors.
    Doors,
}

/// A call by the library, the ordinary program and SuiteSparse, where they have it.
pub struct Case {
    pub section: Section,
    pub call: &'static str,
    pub variant: String,
    /// The entries that the call answered, if it does.
    pub entries: Option<u64>,
    pub subjects: [Option<Box<dyn Subject>>; 3],
}

/// The slots of the store: three matrices, two vectors and the factors of a Kronecker product.
const A: usize = 0;
const B: usize = 1;
const C: usize = 2;
const U: usize = 3;
const W: usize = 4;
const OUTER: usize = 5;
const BLOCK: usize = 6;
/// Where the value of a formula goes.
const TARGET: usize = 7;

const PLAIN: OptionNumbers = OptionNumbers { flags: 0, has_mask: 0, has_accumulator: 0, accumulator: 0 };
const MASKED: OptionNumbers = OptionNumbers { flags: STRUCTURAL, has_mask: 1, ..PLAIN };
const REPLACED: OptionNumbers = OptionNumbers { flags: STRUCTURAL + REPLACE, ..MASKED };
const TURNED: OptionNumbers = OptionNumbers { flags: STRUCTURAL + TRANSPOSE_FIRST, ..MASKED };
const EVERYTHING: OptionNumbers = OptionNumbers { flags: REPLACE, has_mask: 1, has_accumulator: 1, accumulator: PLUS };
/// Flags that are refused before anything else is looked at.
const REFUSED: OptionNumbers = OptionNumbers { flags: 32, ..PLAIN };

const MASKED_TEXT: &str = "structural mask";
const REPLACED_TEXT: &str = "structural mask, replace";
const TURNED_TEXT: &str = "structural mask, A transposed";
const EVERYTHING_TEXT: &str = "mask, accumulator, replace";

/// All cases. The sides have been held against each other; an error says where they differ.
pub fn all_cases() -> Result<Vec<Case>, String> {
    let scenes: Vec<Scene> = SIZES.into_iter().map(Scene::new).collect();
    let mut cases = part_cases(&scenes)?;
    cases.push(row_case()?);
    for scene in &scenes {
        cases.extend(lent_cases(scene)?);
    }
    for scene in &scenes {
        cases.extend(store_cases(scene)?);
    }
    for scene in &scenes {
        cases.extend(day_cases(scene)?);
    }
    cases.extend(file_cases(&scenes)?);
    cases.extend(door_cases(&scenes)?);
    Ok(cases)
}

/// What a call spends on validating and on clearing.
fn part_cases(scenes: &[Scene]) -> Result<Vec<Case>, String> {
    let mut cases = Vec::new();
    for Scene { size, a, .. } in scenes {
        let variant = format!("a matrix of {} entries in {} rows", size.entries, size.side);
        cases.push(part_case("`check`", &variant, Job::Check(a.words()))?);
        let job = Job::Reduce(a.words());
        let peer = agree_total(peer::total(&a.words()), &job, &variant)?;
        let mut reduce = part_case("`reduce`", &variant, job)?;
        reduce.subjects[2] = peer;
        cases.push(reduce);
    }
    let Scene { a, b, mask, c, .. } = &scenes[0];
    let refused = lent_job(Operation::Mxm, REFUSED, [a, b, mask, c]);
    cases.push(part_case("`mxm`", "refused by its flags: it only clears the workspace", Job::Lent(refused))?);
    let mut fill = part_case("`fill`", &format!("zeros into {WORK_WORDS} words, by no call"), Job::Fill)?;
    fill.subjects[0] = None;
    cases.push(fill);
    Ok(cases)
}

/// SuiteSparse's total, if it has it, beside the library's.
fn agree_total(
    peer: Option<(Box<dyn Subject>, i32)>,
    job: &Job,
    variant: &str,
) -> Result<Option<Box<dyn Subject>>, String> {
    let Some((subject, total)) = peer else {
        return Ok(None);
    };
    match library::run(job, &mut Buffers::default()) == u64::from(total as u32) << 32 {
        true => Ok(Some(subject)),
        false => Err(format!("`reduce`, {variant}: the library and SuiteSparse disagree")),
    }
}

fn part_case(call: &'static str, variant: &str, job: Job) -> Result<Case, String> {
    let Agreed { subjects: [library, ordinary], .. } = agree(job, call, variant)?;
    let subjects = [Some(library), Some(ordinary), None];
    Ok(Case { section: Section::Parts, call, variant: variant.to_string(), entries: None, subjects })
}

/// A call that SuiteSparse has not, with the entries that it answers, where it does.
fn own_case(
    section: Section,
    call: &'static str,
    variant: String,
    job: Job,
    answers_entries: bool,
) -> Result<Case, String> {
    let Agreed { subjects: [library, ordinary], answer, .. } = agree(job, call, &variant)?;
    let entries = accepted(answer, call, &variant)?;
    let subjects = [Some(library), Some(ordinary), None];
    Ok(Case { section, call, variant, entries: answers_entries.then_some(entries), subjects })
}

fn day_cases(scene: &Scene) -> Result<Vec<Case>, String> {
    let Scene { size, a, day, marks, w, .. } = scene;
    let [marked, unmarked] = scene.middle_rows();
    let ((day_i, day_j), _) = middle_entry(day);
    let (i, j) = *a.cells.keys().find(|(i, _)| *i >= unmarked && !marks.cells.contains_key(&(0, *i))).expect("one");
    let calls = [
        ("`day_rewrite`", "a row without a mark", DayCall::Rewrite { i: unmarked }),
        ("`day_rewrite`", "a row that has its mark", DayCall::Rewrite { i: marked }),
        ("`day_back`", "a row that has its mark", DayCall::Back { i: marked }),
        ("`day_read`", "a present cell of the base matrix", DayCall::Read { i, j }),
        ("`day_read`", "a present cell of the day matrix", DayCall::Read { i: day_i, j: day_j }),
        ("`day_fold`", "a quarter of the rows from the day matrix", DayCall::Fold),
    ];
    let [base, day, marks, row] = [a, day, marks, w].map(Entries::words);
    let case = |(name, variant, call): (&'static str, &str, DayCall)| {
        let answers_entries = !matches!(call, DayCall::Read { .. });
        let (base, day, marks, row) = (base.clone(), day.clone(), marks.clone(), row.clone());
        let job = Job::Day(DayJob { call, base, day, marks, row });
        own_case(Section::Day(*size), name, variant.to_string(), job, answers_entries)
    };
    calls.into_iter().map(case).collect()
}

fn file_cases(scenes: &[Scene]) -> Result<Vec<Case>, String> {
    let mut cases = Vec::new();
    for Scene { size, a, .. } in scenes {
        let variant = format!("a matrix of {} entries in {} rows", size.entries, size.side);
        let words = a.words();
        let file = words.iter().flat_map(|word| word.to_le_bytes()).collect();
        cases.push(own_case(Section::Files, "`read_file`", variant.clone(), Job::ReadFile(file), true)?);
        cases.push(own_case(Section::Files, "`write_file`", variant.clone(), Job::WriteFile(words.clone()), true)?);
        cases.push(own_case(Section::Files, "`write_text`", variant, Job::WriteText(words), false)?);
    }
    Ok(cases)
}

fn door_cases(scenes: &[Scene]) -> Result<Vec<Case>, String> {
    let case = |variant: String, sheets: [&Entries; 3]| {
        let [locks, cabinets, hand] = sheets.map(Entries::words);
        own_case(Section::Doors, "`open_doors`", variant, Job::Doors { locks, cabinets, hand }, true)
    };
    let mut cases = Vec::new();
    for Scene { size, a, b, u, .. } in scenes {
        let (keys, hand) = (size.side, u.cells.len());
        let variant = format!("{keys} keys and doors, {} entries in each matrix, {hand} keys in hand", size.entries);
        cases.push(case(variant, [a, b, u])?);
    }
    let [locks, cabinets, hand] = corridor(MAX_ROWS as usize);
    cases.push(case(format!("{MAX_ROWS} doors behind one another, as many rounds"), [&locks, &cabinets, &hand])?);
    Ok(cases)
}

/// Reads of each cell of a row with 400 entries. The call is a read of one cell; all of them are timed together.
fn row_case() -> Result<Case, String> {
    let (call, variant) = ("`read_cell`", "each of the 512 cells of a row with 400 entries, 512 calls");
    let vector = full_row();
    let words = vector.words();
    let peer = agree_peer(peer::row(&vector), &words, call, variant)?;
    let job = Job::ReadRow { words, cols: vector.cols as u32 };
    let Agreed { subjects: [library, ordinary], .. } = agree(job, call, variant)?;
    let subjects = [Some(library), Some(ordinary), peer];
    Ok(Case { section: Section::Row, call, variant: variant.to_string(), entries: None, subjects })
}

/// The two programs for a job on which they agree, and what they left.
struct Agreed {
    subjects: [Box<dyn Subject>; 2],
    answer: u64,
    after: Buffers,
}

/// Carries a job out by both programs, and compares the answers and every word.
fn agree(job: Job, call: &str, variant: &str) -> Result<Agreed, String> {
    let run = |program: Program| {
        let mut buffers = Buffers::default();
        buffers.work.fill(1);
        buffers.stack.fill(1);
        job.restore(&mut buffers);
        (program(&job, &mut buffers), buffers)
    };
    let (answer, after) = run(library::run);
    if run(ordinary::run) != (answer, after.clone()) {
        return Err(format!("{call}, {variant}: the library and the ordinary program disagree"));
    }
    let job = Rc::new(job);
    let subject = |program| -> Box<dyn Subject> { Box::new(ProgramSubject { job: job.clone(), program }) };
    Ok(Agreed { subjects: [subject(library::run), subject(ordinary::run)], answer, after })
}

/// Carries a call out by SuiteSparse, if it has it, and compares the entries with those of the matrix in the words.
fn agree_peer(
    peer: Option<Box<dyn Peer>>,
    words: &[u32],
    call: &str,
    variant: &str,
) -> Result<Option<Box<dyn Subject>>, String> {
    let Some(mut peer) = peer else {
        return Ok(None);
    };
    let mut buffers = Buffers::default();
    peer.restore(&mut buffers);
    peer.call(&mut buffers);
    if peer.result() != Entries::read(words) {
        return Err(format!("{call}, {variant}: the library and SuiteSparse disagree"));
    }
    Ok(Some(peer))
}

/// The entries of an answer, which has to be no refusal.
fn accepted(answer: u64, call: &str, variant: &str) -> Result<u64, String> {
    match answer & 255 {
        0 => Ok(answer >> 32),
        code => Err(format!("{call}, {variant}: refused by {code}")),
    }
}

fn lent_job(operation: Operation, options: OptionNumbers, [a, b, mask, c]: [&Entries; 4]) -> LentJob {
    LentJob { operation, options, a: a.words(), b: b.words(), mask: mask.words(), c: c.words() }
}

fn extract(scene: &Scene) -> Operation {
    Operation::Extract { rows: scene.row_list.clone(), cols: scene.col_list.clone() }
}

fn assign(scene: &Scene) -> Operation {
    Operation::Assign { rows: scene.row_list.clone(), cols: scene.col_list.clone() }
}

fn plain_text(pattern: &str) -> String {
    with_pattern("plain", pattern)
}

/// A variant, and what its matrices are, if they are special.
fn with_pattern(variant: &str, pattern: &str) -> String {
    match pattern {
        "" => variant.to_string(),
        _ => format!("{variant}; {pattern}"),
    }
}

fn block_text(block: &Entries) -> String {
    plain_text(&format!("B of {} by {} cells", block.rows, block.cols))
}

fn lent_cases(scene: &Scene) -> Result<Vec<Case>, String> {
    let Scene { size, a, b, mask, c, u, vector_mask, w, outer, block, .. } = scene;
    let (left, right, factors_text) = &scene.factors;
    let (addend, addend_text) = &scene.addend;
    let all = EVERYTHING_TEXT.to_string();
    let one = Entries { rows: 1, cols: 1, cells: [((0, 0), 3)].into() };
    let jobs = [
        ("`mxm`", plain_text(factors_text), lent_job(Operation::Mxm, PLAIN, [left, right, mask, c])),
        ("`mxm`", MASKED_TEXT.to_string(), lent_job(Operation::Mxm, MASKED, [a, b, mask, c])),
        ("`mxm`", TURNED_TEXT.to_string(), lent_job(Operation::Mxm, TURNED, [a, b, mask, c])),
        ("`mxm`", all.clone(), lent_job(Operation::Mxm, EVERYTHING, [a, b, mask, c])),
        ("`vxm`", plain_text(""), lent_job(Operation::Vxm, PLAIN, [u, a, vector_mask, w])),
        ("`vxm`", all.clone(), lent_job(Operation::Vxm, EVERYTHING, [u, a, vector_mask, w])),
        ("`ewise_mult`", plain_text(""), lent_job(Operation::EwiseMult, PLAIN, [a, b, mask, c])),
        ("`ewise_mult`", all.clone(), lent_job(Operation::EwiseMult, EVERYTHING, [a, b, mask, c])),
        ("`ewise_add`", plain_text(addend_text), lent_job(Operation::EwiseAdd, PLAIN, [a, addend, mask, c])),
        ("`ewise_add`", all.clone(), lent_job(Operation::EwiseAdd, EVERYTHING, [a, b, mask, c])),
        ("`apply`", plain_text(""), lent_job(Operation::Apply, PLAIN, [a, b, mask, c])),
        ("`apply`", all.clone(), lent_job(Operation::Apply, EVERYTHING, [a, b, mask, c])),
        ("`extract`", plain_text(""), lent_job(extract(scene), PLAIN, [a, b, mask, c])),
        ("`extract`", all.clone(), lent_job(extract(scene), EVERYTHING, [a, b, mask, c])),
        ("`select`", plain_text(""), lent_job(Operation::Select, PLAIN, [a, b, mask, c])),
        ("`select`", all.clone(), lent_job(Operation::Select, EVERYTHING, [a, b, mask, c])),
        ("`reduce_rows`", plain_text(""), lent_job(Operation::ReduceRows, PLAIN, [a, b, vector_mask, w])),
        ("`reduce_rows`", all.clone(), lent_job(Operation::ReduceRows, EVERYTHING, [a, b, vector_mask, w])),
        ("`assign`", plain_text(""), lent_job(assign(scene), PLAIN, [a, b, mask, c])),
        ("`assign`", all.clone(), lent_job(assign(scene), EVERYTHING, [a, b, mask, c])),
        ("`kronecker`", plain_text("B of one cell"), lent_job(Operation::Kronecker, PLAIN, [a, &one, mask, c])),
        ("`kronecker`", all, lent_job(Operation::Kronecker, EVERYTHING, [a, &one, mask, c])),
        ("`kronecker`", block_text(block), lent_job(Operation::Kronecker, PLAIN, [outer, block, mask, c])),
    ];
    jobs.into_iter().map(|(call, variant, job)| lent_case(*size, call, variant, job)).collect()
}

fn lent_case(size: Size, call: &'static str, variant: String, job: LentJob) -> Result<Case, String> {
    let peer = peer::operation(&job);
    let Agreed { subjects: [library, ordinary], answer, after } = agree(Job::Lent(job), call, &variant)?;
    let entries = Some(accepted(answer, call, &variant)?);
    let peer = agree_peer(peer, &after.c, call, &variant)?;
    Ok(Case { section: Section::Lent(size), call, variant, entries, subjects: [Some(library), Some(ordinary), peer] })
}

/// The words of a store with these matrices.
fn store_words(matrices: &[&Entries]) -> Vec<u32> {
    let mut words = Vec::new();
    for entries in matrices {
        let matrix = entries.words();
        words.push(matrix.len() as u32);
        words.extend(matrix);
    }
    assert!(words.len() + SLOTS <= STORE_WORDS, "the store has room");
    words.resize(STORE_WORDS, 0);
    words
}

/// The middle entry of A, and A without it.
fn middle_entry(a: &Entries) -> ((u32, u32), Entries) {
    let middle = a.cells.keys().copied().nth(a.cells.len() / 2).expect("A has entries");
    let mut without = a.clone();
    without.cells.remove(&middle);
    (middle, without)
}

fn store_cases(scene: &Scene) -> Result<Vec<Case>, String> {
    let side = scene.size.side as u32;
    let ((i, j), without) = middle_entry(&scene.a);
    let cell_calls = [
        ("`store_new_empty`", "over the first matrix", StoreCall::NewEmpty { slot: A, rows: side, cols: side }),
        ("`store_drop`", "the first matrix", StoreCall::Drop { slot: A }),
        ("`store_set_cell`", "a present cell", StoreCall::SetCell { slot: A, i, j, value: 7 }),
        ("`store_clear_cell`", "a present cell", StoreCall::ClearCell { slot: A, i, j }),
        ("`store_read_cell`", "a present cell", StoreCall::ReadCell { slot: A, i, j }),
        ("`store_reduce`", "the first matrix", StoreCall::Reduce { slot: A }),
    ];
    let operation =
        |operation, options, [a, b, mask, c]: [usize; 4]| StoreCall::Operation { operation, options, a, b, mask, c };
    let operations = [
        ("`store_mxm`", MASKED_TEXT, operation(Operation::Mxm, MASKED, [A, B, B, C])),
        ("`store_vxm`", "plain", operation(Operation::Vxm, PLAIN, [U, A, W, W])),
        ("`store_ewise_mult`", "plain", operation(Operation::EwiseMult, PLAIN, [A, B, B, C])),
        ("`store_ewise_add`", REPLACED_TEXT, operation(Operation::EwiseAdd, REPLACED, [A, B, B, C])),
        ("`store_apply`", "plain", operation(Operation::Apply, PLAIN, [A, A, A, C])),
        ("`store_extract`", "plain", operation(extract(scene), PLAIN, [A, A, A, C])),
        ("`store_select`", "plain", operation(Operation::Select, PLAIN, [A, A, A, C])),
        ("`store_reduce_rows`", "plain", operation(Operation::ReduceRows, PLAIN, [A, A, W, W])),
        ("`store_assign`", "plain", operation(assign(scene), PLAIN, [A, A, A, C])),
        ("`store_kronecker`", &block_text(&scene.block), operation(Operation::Kronecker, PLAIN, [OUTER, BLOCK, C, C])),
    ];
    let mut cases = Vec::new();
    for (call, variant, job) in cell_calls.into_iter().chain(operations) {
        cases.push(store_case(scene, &scene.a, call, variant, job)?);
    }
    // A full matrix takes no new cell: the first one lacks the entry that is put.
    let new_cell = StoreCall::SetCell { slot: A, i, j, value: 7 };
    cases.insert(2, store_case(scene, &without, "`store_set_cell`", "a new cell", new_cell)?);
    let (left, right, factors_text) = &scene.factors;
    cases.push(formula_case(scene.size, "0*1", factors_text, &[left, right])?);
    // A sum of two products of more entries would have too many.
    if scene.size.entries == SIZES[0].entries {
        let matrices = [left, right, &scene.c, &scene.mask];
        cases.push(formula_case(scene.size, "0*1+2*3", factors_text, &matrices)?);
    }
    Ok(cases)
}

/// A formula over a store with these matrices alone, into an empty slot.
fn formula_case(size: Size, text: &'static str, about: &str, matrices: &[&Entries]) -> Result<Case, String> {
    let call = "`store_formula`";
    let variant = with_pattern(&format!("`{text}`"), about);
    let peer = peer::formula(text, matrices);
    let job = Job::Store(StoreCall::Formula { target: TARGET, text }, store_words(matrices));
    let Agreed { subjects: [library, ordinary], answer, after } = agree(job, call, &variant)?;
    let entries = Some(accepted(answer, call, &variant)?);
    let value =
        Store::from_words(after.store).and_then(|store| store.matrix(TARGET)).map_err(|error| error.to_string())?;
    let peer = agree_peer(peer, value.words(), call, &variant)?;
    Ok(Case { section: Section::Store(size), call, variant, entries, subjects: [Some(library), Some(ordinary), peer] })
}

fn store_case(scene: &Scene, a: &Entries, call: &'static str, variant: &str, job: StoreCall) -> Result<Case, String> {
    let peer = peer::element(&job, a);
    let is_read = matches!(job, StoreCall::ReadCell { .. } | StoreCall::Reduce { .. });
    let job = Job::Store(job, store_words(&[a, &scene.b, &scene.c, &scene.u, &scene.w, &scene.outer, &scene.block]));
    let Agreed { subjects: [library, ordinary], answer, after } = agree(job, call, variant)?;
    let entries = if is_read { None } else { Some(accepted(answer, call, variant)?) };
    // A call on a cell is on the matrix in the first slot, which begins behind its count.
    let peer = agree_peer(peer, &after.store[1..], call, variant)?;
    let section = Section::Store(scene.size);
    Ok(Case { section, call, variant: variant.to_string(), entries, subjects: [Some(library), Some(ordinary), peer] })
}
