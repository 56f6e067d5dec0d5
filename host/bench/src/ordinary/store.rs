//! The calls on a store.

use super::answer::{ensure, pack, pack_cell, pack_number, Refusal, Result};
use super::compute::{add_up, compute};
use super::matrix::{side_valid, size, write_empty, Cell, Matrix, MAX_ENTRIES, STARTS_AT};
use super::operators::BinaryOp;
use super::request::{Inputs, Operation, Request};
use super::sections::{Bounds, Store, SLOTS};
use ostrubel::calls::OptionNumbers;

/// An empty matrix in a slot.
pub fn store_new_empty(slot: usize, rows: u32, cols: u32, store: &mut [u32]) -> u64 {
    pack(new_empty(slot, rows, cols, store))
}

/// A slot becomes empty.
pub fn store_drop(slot: usize, store: &mut [u32]) -> u64 {
    pack(empty(slot, store))
}

/// The cell at row i and column j takes a value.
pub fn store_set_cell(slot: usize, i: u32, j: u32, value: u32, store: &mut [u32]) -> u64 {
    pack(set_cell(slot, i, j, value, store))
}

/// The cell at row i and column j becomes absent.
pub fn store_clear_cell(slot: usize, i: u32, j: u32, store: &mut [u32]) -> u64 {
    pack(clear_cell(slot, i, j, store))
}

/// The cell at row i and column j of a slot's matrix.
pub fn store_read_cell(slot: usize, i: u32, j: u32, store: &[u32]) -> u64 {
    pack_cell(find_cell(slot, i, j, store).map(|found| found.cell))
}

/// All values of a slot's matrix added up with a monoid.
pub fn store_reduce(slot: usize, monoid: u32, store: &[u32]) -> u64 {
    pack_number(total(slot, monoid, store))
}

fn total(slot: usize, monoid: u32, words: &[u32]) -> Result<u32> {
    let store = parse(words, &[slot])?;
    let op = BinaryOp::monoid(monoid).ok_or(Refusal::UnknownOperator)?;
    let matrix = store.matrix(slot).ok_or(Refusal::EmptySlot)?;
    Ok(add_up(op, op.identity(), matrix.values))
}

fn new_empty(slot: usize, rows: u32, cols: u32, words: &mut [u32]) -> Result<usize> {
    let bounds = parse(words, &[slot])?.bounds;
    ensure(side_valid(rows) && side_valid(cols), Refusal::InvalidShape)?;
    let size = size(rows as usize, 0);
    ensure(bounds.needed(slot, size) <= words.len(), Refusal::InsufficientSpace)?;
    bounds.resize(words, slot, size);
    let at = bounds.contents_at(slot);
    write_empty(&mut words[at..at + size], rows, cols);
    Ok(0)
}

fn empty(slot: usize, words: &mut [u32]) -> Result<usize> {
    let bounds = parse(words, &[slot])?.bounds;
    bounds.resize(words, slot, 0);
    Ok(0)
}

/// The store, where it is one and the slots are below 8. Refused by 12.
pub fn parse<'a>(words: &'a [u32], slots: &[usize]) -> Result<Store<'a>> {
    let store = Store::parse(words).ok_or(Refusal::InvalidStore)?;
    ensure(slots.iter().all(|&slot| slot < SLOTS), Refusal::InvalidStore)?;
    Ok(store)
}

/// A cell of a slot's matrix, with the matrix and the store's sections.
struct Found<'a> {
    cell: Cell,
    matrix: Matrix<'a>,
    bounds: Bounds,
}

/// Refused by 12, 13 and 7.
fn find_cell(slot: usize, i: u32, j: u32, words: &[u32]) -> Result<Found<'_>> {
    let store = parse(words, &[slot])?;
    let matrix = store.matrix(slot).ok_or(Refusal::EmptySlot)?;
    let inside = (i as usize) < matrix.rows() && (j as usize) < matrix.cols;
    ensure(inside, Refusal::IndexOutOfBounds)?;
    Ok(Found { cell: matrix.cell(i as usize, j), matrix, bounds: store.bounds })
}

/// Where the sections of a slot's matrix are in the store's words.
struct Places {
    revision: usize,
    starts: usize,
    rows: usize,
    columns: usize,
    values: usize,
}

impl Places {
    fn new(bounds: Bounds, slot: usize, rows: usize, entries: usize) -> Self {
        let starts = bounds.contents_at(slot) + STARTS_AT;
        let columns = starts + rows + 2;
        Places { revision: bounds.contents_at(slot) + 1, starts, rows, columns, values: columns + entries + 1 }
    }

    /// The starts of the rows behind row i, and N.
    fn starts_behind<'w>(&self, words: &'w mut [u32], i: u32) -> &'w mut [u32] {
        &mut words[self.starts + i as usize + 1..self.starts + self.rows + 2]
    }
}

fn set_cell(slot: usize, i: u32, j: u32, value: u32, words: &mut [u32]) -> Result<usize> {
    let Found { cell, matrix, bounds } = find_cell(slot, i, j, words)?;
    let (rows, entries, at) = (matrix.rows(), matrix.entries(), cell.position);
    let (places, revision) = (Places::new(bounds, slot, rows, entries), matrix.next_revision());
    match cell.value {
        Some(_) => {
            words[places.revision] = revision;
            words[places.values + at] = value;
            Ok(entries)
        }
        None => {
            ensure(entries < MAX_ENTRIES, Refusal::TooManyEntries)?;
            ensure(bounds.end() + 2 <= words.len(), Refusal::InsufficientSpace)?;
            let (column_at, value_at) = (places.columns + at, places.values + at);
            words.copy_within(value_at..bounds.end(), value_at + 2);
            words.copy_within(column_at..value_at, column_at + 1);
            words[places.revision] = revision;
            words[column_at] = j;
            words[value_at + 1] = value;
            words[places.values] = entries as u32 + 1;
            places.starts_behind(words, i).iter_mut().for_each(|start| *start += 1);
            words[bounds.contents_at(slot) - 1] += 2;
            Ok(entries + 1)
        }
    }
}

fn clear_cell(slot: usize, i: u32, j: u32, words: &mut [u32]) -> Result<usize> {
    let Found { cell, matrix, bounds } = find_cell(slot, i, j, words)?;
    let (rows, entries, at) = (matrix.rows(), matrix.entries(), cell.position);
    let places = Places::new(bounds, slot, rows, entries);
    words[places.revision] = matrix.next_revision();
    if cell.value.is_none() {
        return Ok(entries);
    }
    let (column_at, value_at, end) = (places.columns + at, places.values + at, bounds.end());
    words.copy_within(column_at + 1..value_at, column_at);
    words.copy_within(value_at + 1..end, value_at - 1);
    words[end - 2..end].fill(0);
    words[places.values - 2] = entries as u32 - 1;
    places.starts_behind(words, i).iter_mut().for_each(|start| *start -= 1);
    words[bounds.contents_at(slot) - 1] -= 2;
    Ok(entries - 1)
}

/// C gets A times B: op multiplies, the monoid adds up.
#[allow(clippy::too_many_arguments)]
pub fn store_mxm(
    options: OptionNumbers,
    monoid: u32,
    op: u32,
    a: usize,
    b: usize,
    mask: usize,
    c: usize,
    store: &mut [u32],
    work: &mut [u32],
) -> u64 {
    run(options, Operation::mxm(monoid, op), Slots { a, b: Some(b), mask, c }, store, work)
}

/// C gets u times A, where u has one row.
#[allow(clippy::too_many_arguments)]
pub fn store_vxm(
    options: OptionNumbers,
    monoid: u32,
    op: u32,
    u: usize,
    a: usize,
    mask: usize,
    c: usize,
    store: &mut [u32],
    work: &mut [u32],
) -> u64 {
    run(options, Operation::vxm(monoid, op), Slots { a: u, b: Some(a), mask, c }, store, work)
}

/// Where both A and B have an entry: op of the two.
#[allow(clippy::too_many_arguments)]
pub fn store_ewise_mult(
    options: OptionNumbers,
    op: u32,
    a: usize,
    b: usize,
    mask: usize,
    c: usize,
    store: &mut [u32],
    work: &mut [u32],
) -> u64 {
    run(options, Operation::ewise_mult(op), Slots { a, b: Some(b), mask, c }, store, work)
}

/// Where both A and B have an entry: op of the two; where one has: its value.
#[allow(clippy::too_many_arguments)]
pub fn store_ewise_add(
    options: OptionNumbers,
    op: u32,
    a: usize,
    b: usize,
    mask: usize,
    c: usize,
    store: &mut [u32],
    work: &mut [u32],
) -> u64 {
    run(options, Operation::ewise_add(op), Slots { a, b: Some(b), mask, c }, store, work)
}

/// An operator of a kind, with a scalar, on every entry of A.
#[allow(clippy::too_many_arguments)]
pub fn store_apply(
    options: OptionNumbers,
    kind: u32,
    op: u32,
    scalar: u32,
    a: usize,
    mask: usize,
    c: usize,
    store: &mut [u32],
    work: &mut [u32],
) -> u64 {
    run(options, Operation::apply(kind, op, scalar), Slots { a, b: None, mask, c }, store, work)
}

/// At (i, j) the cell of A at row is[i] and column js[j].
#[allow(clippy::too_many_arguments)]
pub fn store_extract(
    options: OptionNumbers,
    a: usize,
    mask: usize,
    c: usize,
    store: &mut [u32],
    is: &[u32],
    js: &[u32],
    work: &mut [u32],
) -> u64 {
    run(options, Some(Operation::Extract { rows: is, cols: js }), Slots { a, b: None, mask, c }, store, work)
}

/// The entries of A for which a condition with a scalar holds.
#[allow(clippy::too_many_arguments)]
pub fn store_select(
    options: OptionNumbers,
    op: u32,
    scalar: u32,
    a: usize,
    mask: usize,
    c: usize,
    store: &mut [u32],
    work: &mut [u32],
) -> u64 {
    run(options, Operation::select(op, scalar), Slots { a, b: None, mask, c }, store, work)
}

/// In one row, at column j, the values of A's row j added up with the monoid.
pub fn store_reduce_rows(
    options: OptionNumbers,
    monoid: u32,
    a: usize,
    mask: usize,
    c: usize,
    store: &mut [u32],
    work: &mut [u32],
) -> u64 {
    run(options, Operation::reduce_rows(monoid), Slots { a, b: None, mask, c }, store, work)
}

/// At (is[k], js[l]) of C the cell of A at (k, l).
#[allow(clippy::too_many_arguments)]
pub fn store_assign(
    options: OptionNumbers,
    a: usize,
    mask: usize,
    c: usize,
    store: &mut [u32],
    is: &[u32],
    js: &[u32],
    work: &mut [u32],
) -> u64 {
    run(options, Some(Operation::Assign { rows: is, cols: js }), Slots { a, b: None, mask, c }, store, work)
}

/// The Kronecker product.
#[allow(clippy::too_many_arguments)]
pub fn store_kronecker(
    options: OptionNumbers,
    op: u32,
    a: usize,
    b: usize,
    mask: usize,
    c: usize,
    store: &mut [u32],
    work: &mut [u32],
) -> u64 {
    run(options, Operation::kronecker(op), Slots { a, b: Some(b), mask, c }, store, work)
}

/// The slots that a call names. The mask's is not looked at where there is none.
#[derive(Clone, Copy)]
struct Slots {
    a: usize,
    b: Option<usize>,
    mask: usize,
    c: usize,
}

/// The attempt, and then the workspace is cleared.
fn run(options: OptionNumbers, operation: Option<Operation>, slots: Slots, store: &mut [u32], work: &mut [u32]) -> u64 {
    let answer = attempt(options, operation, slots, store, work);
    work.fill(0);
    pack(answer)
}

fn attempt(
    options: OptionNumbers,
    operation: Option<Operation>,
    slots: Slots,
    words: &mut [u32],
    work: &mut [u32],
) -> Result<usize> {
    let Slots { a, b, mask, c } = slots;
    let (b, mask) = (b.unwrap_or(a), if options.has_mask != 0 { mask } else { c });
    let store = parse(words, &[a, b, mask, c])?;
    let request = Request::new(options, operation)?;
    let matrix = |slot| store.matrix(slot).ok_or(Refusal::EmptySlot);
    let (a, b, mask, old) = (matrix(a)?, matrix(b)?, matrix(mask)?, matrix(c)?);
    let inputs = Inputs { a, b, mask: request.has_mask.then_some(mask), c: old };
    request.check(&inputs, work.len())?;
    let result = compute(&request, &inputs, work)?;
    let bounds = store.bounds;
    ensure(bounds.needed(c, result.size()) <= words.len(), Refusal::InsufficientSpace)?;
    bounds.resize(words, c, result.size());
    result.write(&mut words[bounds.contents_at(c)..]);
    Ok(result.entries())
}
