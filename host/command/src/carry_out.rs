//! A call carried out on a store in memory.

use crate::call::{Call, Doors, Kind, Operation};
use crate::look::Look;
use crate::names::{IndexList, Whole};
use crate::refusal::Refusal;
use crate::view;
use ostrubel::{Error, Matrix, Store, SLOTS};
use std::collections::BTreeMap;

/// Carries out the call and answers what it prints. A refused call leaves the store as it was.
pub fn carry_out(call: &Call, store: &mut Store, look: &Look) -> Result<String, Refusal> {
    attempt(call, store, look).map_err(|error| Refusal::of_call(error, call, store))
}

fn attempt(call: &Call, store: &mut Store, look: &Look) -> Result<String, Error> {
    match call {
        Call::Lay { slot, rows, cols } => {
            store.new_empty(slot.size(), rows.index(), cols.index())?;
            Ok(format!("place {slot}: {rows} by {cols}, 0 entries"))
        }
        Call::Drop { slot } => {
            store.drop_slot(slot.size())?;
            Ok(format!("place {slot}: empty"))
        }
        Call::Set { cell, value } => {
            let entries = store.set(cell.slot.size(), cell.row.index(), cell.col.index(), *value)?;
            Ok(written(&cell.slot, entries))
        }
        Call::Clear { cell } => {
            let entries = store.clear(cell.slot.size(), cell.row.index(), cell.col.index())?;
            Ok(written(&cell.slot, entries))
        }
        Call::Read { cell, position } => {
            let (row, col) = (cell.row.index(), cell.col.index());
            let found = store.find(cell.slot.size(), row, col)?;
            Ok(view::cell(found, cell.slot.size(), (row, col), *position, look))
        }
        Call::Show { slot, revision } => Ok(view::sheet(&store.matrix(slot.size())?, slot.size(), *revision, look)),
        Call::Revision { slot } => Ok(store.revision(slot.size())?.to_string()),
        Call::List => view::list(store, look),
        Call::Diff { old, new, picture } => {
            if [old, new].iter().any(|slot| slot.size() >= SLOTS) {
                return Err(Error::InvalidStore);
            }
            let (old, new) = (store.matrix(old.size())?, store.matrix(new.size())?);
            Ok(view::difference(&old, &new, *picture, look))
        }
        Call::Reduce { slot, monoid } => Ok(store.reduce(slot.size(), *monoid)?.to_string()),
        Call::Operation(operation) => {
            let entries = operate(operation, store)?;
            Ok(written(&operation.c, entries))
        }
        Call::Formula(formula) => {
            let entries = store.formula(formula.target.size(), &formula.text, formula.semiring)?;
            Ok(written(&formula.target, entries))
        }
        Call::Doors(doors) => open_doors(doors, store),
    }
}

fn written(slot: &Whole, entries: usize) -> String {
    format!("place {slot}: {}", counted(entries, "entry", "entries"))
}

/// A count with its noun.
pub fn counted(count: usize, one: &str, more: &str) -> String {
    format!("{count} {}", if count == 1 { one } else { more })
}

fn operate(operation: &Operation, store: &mut Store) -> Result<usize, Error> {
    let c = operation.c.size();
    let options = operation.write_back.options();
    match &operation.kind {
        Kind::Mxm { semiring, a, b } => store.mxm(c, *semiring, a.size(), b.size(), &options),
        Kind::Vxm { semiring, u, a } => store.vxm(c, *semiring, u.size(), a.size(), &options),
        Kind::EwiseMult { op, a, b } => store.ewise_mult(c, *op, a.size(), b.size(), &options),
        Kind::EwiseAdd { op, a, b } => store.ewise_add(c, *op, a.size(), b.size(), &options),
        Kind::Apply { op, a } => store.apply(c, *op, a.size(), &options),
        Kind::Extract { a, rows, cols } => {
            // Without a matrix the call is refused whatever the lists are.
            let (all_rows, all_cols) = shape(a, operation.write_back.transpose_first, store).unwrap_or((1, 1));
            store.extract(c, a.size(), &indexes(rows, all_rows), &indexes(cols, all_cols), &options)
        }
        Kind::Select { op, a } => store.select(c, *op, a.size(), &options),
        Kind::ReduceRows { monoid, a } => store.reduce_rows(c, *monoid, a.size(), &options),
        Kind::Assign { a, rows, cols } => {
            let (all_rows, all_cols) = shape(&operation.c, false, store).unwrap_or((1, 1));
            store.assign(c, a.size(), &indexes(rows, all_rows), &indexes(cols, all_cols), &options)
        }
        Kind::Kronecker { op, a, b } => store.kronecker(c, *op, a.size(), b.size(), &options),
    }
}

/// Rows and columns of a slot's matrix, as transposed.
pub fn shape(slot: &Whole, transposed: bool, store: &Store) -> Option<(u32, u32)> {
    let matrix = store.matrix(slot.size()).ok()?;
    Some(if transposed { (matrix.cols(), matrix.rows()) } else { (matrix.rows(), matrix.cols()) })
}

fn indexes(list: &IndexList, all: u32) -> Vec<u32> {
    match list {
        IndexList::All => (0..all).collect(),
        IndexList::Listed(indexes) => indexes.iter().map(|index| index.index()).collect(),
    }
}

/// A line for each round in which doors open for the first time, and one for how many they are.
fn open_doors(doors: &Doors, store: &Store) -> Result<String, Error> {
    let Doors { locks, cabinets, hand, allowance } = doors;
    if [locks, cabinets, hand].iter().any(|slot| slot.size() >= SLOTS) {
        return Err(Error::InvalidStore);
    }
    let [locks, cabinets, hand] = [locks, cabinets, hand].map(|slot| store.matrix(slot.size()));
    let opened = Matrix::open_doors(&locks?, &cabinets?, &hand?, allowance.index())?;
    let mut rounds: BTreeMap<i32, Vec<String>> = BTreeMap::new();
    for (_, door, round) in &opened {
        rounds.entry(round).or_default().push(door.to_string());
    }
    let line = |(round, doors): (i32, Vec<String>)| {
        format!("round {round}: {} {}", if doors.len() == 1 { "door" } else { "doors" }, doors.join(", "))
    };
    let mut lines: Vec<String> = rounds.into_iter().map(line).collect();
    lines.push(format!("{} of {} open", opened.entries(), counted(opened.cols() as usize, "door", "doors")));
    Ok(lines.join("\n"))
}
