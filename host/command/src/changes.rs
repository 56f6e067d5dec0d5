//! The cells in which two sheets differ.

use crate::carry_out::counted;
use crate::look::Look;
use crate::sheet_file::described;
use ostrubel::{Matrix, Store, SLOTS};
use std::collections::{BTreeMap, BTreeSet};

/// What a dry run ends with.
pub const DRY_RUN: &str = "a dry run: nothing was saved";

/// A cell with its value before and after, where it has one.
#[derive(Clone, Copy, Debug, PartialEq, Eq)]
pub struct Change {
    pub row: u32,
    pub col: u32,
    pub old: Option<i32>,
    pub new: Option<i32>,
}

/// What differs, row by row. Where there is no sheet, or a smaller one, there are no values.
pub fn between(old: Option<&Matrix>, new: Option<&Matrix>) -> Vec<Change> {
    let cells = |matrix: Option<&Matrix>| -> BTreeMap<(u32, u32), i32> {
        matrix.into_iter().flatten().map(|(row, col, value)| ((row, col), value)).collect()
    };
    let (old, new) = (cells(old), cells(new));
    let all: BTreeSet<(u32, u32)> = old.keys().chain(new.keys()).copied().collect();
    let change =
        |(row, col)| Change { row, col, old: old.get(&(row, col)).copied(), new: new.get(&(row, col)).copied() };
    all.into_iter().map(change).filter(|change| change.old != change.new).collect()
}

/// A line for each change.
pub fn lines(changes: &[Change], look: &Look) -> Vec<String> {
    let text = |value: Option<i32>| value.map_or_else(|| "empty".to_string(), |value| value.to_string());
    let line = |change: &Change| {
        let (old, new) = (look.old(&text(change.old)), look.new_value(&text(change.new)));
        format!("  {}: {old} -> {new}", look.labels.cell(change.row, change.col))
    };
    changes.iter().map(line).collect()
}

/// The places that differ between two states of a shelf, and their cells.
pub fn of_store(before: &Store, after: &Store, look: &Look) -> String {
    let mut text = Vec::new();
    for slot in 0..SLOTS {
        let (old, new) = (before.matrix(slot).ok(), after.matrix(slot).ok());
        if old == new {
            continue;
        }
        text.extend(of_sheet(&look.labels.place_head(slot), old.as_ref(), new.as_ref(), look));
    }
    if before.words().len() != after.words().len() {
        text.push(format!("the shelf: {} words -> {} words", before.words().len(), after.words().len()));
    }
    if text.is_empty() {
        text.push("no cell would change".to_string());
    }
    text.push(DRY_RUN.to_string());
    text.join("\n")
}

/// How many cells of a sheet would change, and a line for each.
pub fn of_sheet(name: &str, old: Option<&Matrix>, new: Option<&Matrix>, look: &Look) -> Vec<String> {
    let changes = between(old, new);
    let count = counted(changes.len(), "cell", "cells");
    let mut text = vec![format!("{name}: {}{count} would change", reshaped(old, new))];
    text.extend(lines(&changes, look));
    text
}

/// The sheets before and after, where the shape is another.
fn reshaped(old: Option<&Matrix>, new: Option<&Matrix>) -> String {
    let shape = |matrix: Option<&Matrix>| matrix.map(|matrix| (matrix.rows(), matrix.cols()));
    let text = |matrix: Option<&Matrix>| matrix.map_or_else(|| "empty".to_string(), described);
    if shape(old) == shape(new) {
        String::new()
    } else {
        format!("{} -> {}; ", text(old), text(new))
    }
}

#[cfg(test)]
mod tests {
    use super::*;
    use crate::look::tests::plain;

    #[test]
    fn cells_that_come_go_and_change() {
        let old = Matrix::from_triples(2, 3, [(0, 0, 1), (0, 1, 2), (1, 2, 0)]).unwrap();
        let new = Matrix::from_triples(2, 3, [(0, 0, 1), (0, 1, -2), (1, 1, 7)]).unwrap();
        let found = lines(&between(Some(&old), Some(&new)), &plain(80));
        assert_eq!(
            found,
            ["  row 0, column 1: 2 -> -2", "  row 1, column 1: empty -> 7", "  row 1, column 2: 0 -> empty"]
        );
        assert_eq!(between(Some(&old), Some(&old)), []);
        assert_eq!(between(None, Some(&old)).len(), 3);
        assert_eq!(between(None, None), []);
    }

    #[test]
    fn places_that_change() {
        let mut before = Store::new(200).unwrap();
        before.new_empty(0, 2, 2).unwrap();
        before.new_empty(5, 1, 1).unwrap();
        let mut after = before.clone();
        after.set(0, 1, 1, 9).unwrap();
        after.new_empty(3, 1, 4).unwrap();
        after.drop_slot(5).unwrap();
        let text = "place 0: 1 cell would change\n  row 1, column 1: empty -> 9\n\
                    place 3: empty -> 1 by 4, 0 entries; 0 cells would change\n\
                    place 5: 1 by 1, 0 entries -> empty; 0 cells would change\na dry run: nothing was saved";
        assert_eq!(of_store(&before, &after, &plain(80)), text);
        assert_eq!(of_store(&before, &before, &plain(80)), "no cell would change\na dry run: nothing was saved");
    }
}
