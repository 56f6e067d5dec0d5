//! Each cell of rows with few, many and all columns, read, set and cleared: what a search for a column can find or miss.

use crate::calls::{LentCall, StoreCall, StoreList};
use crate::grid::{Grid, MAX_SIDE};
use crate::store_grids::{StoreGrids, SLOTS};

/// The entries of the rows.
const LENGTHS: [u32; 6] = [0, 1, 2, 3, 400, MAX_SIDE];

/// A sheet with a row of each length, whose entries are spread over the columns. Some values are 0.
fn sheet() -> Grid {
    let mut grid = Grid::empty(LENGTHS.len() as u32, MAX_SIDE);
    for (i, length) in (0..).zip(LENGTHS) {
        grid.cells.extend((0..length).map(|k| ((i, (2 * k + 1) * MAX_SIDE / (2 * length)), k as i32 % 7 - 3)));
    }
    grid
}

/// A read of each cell of the rows, and of those just past them.
pub fn reads() -> Vec<LentCall> {
    let grid = sheet();
    let words = grid.words();
    let read = |i, j| LentCall::ReadCell { words: words.clone(), i, j };
    (0..=grid.rows).flat_map(|i| (0..=grid.cols).map(move |j| read(i, j))).collect()
}

/// For each row, on a store with room for one entry more: each cell is read, changed, read and changed back.
pub fn lists() -> Vec<StoreList> {
    let grid = sheet();
    let slot = SLOTS - 1;
    let mut store = StoreGrids::fresh(SLOTS + grid.size() + 2);
    store.slots[slot] = Some(grid.clone());
    let store = store.words();
    let changes = |i, j| {
        let set = |value: i32| StoreCall::SetCell { slot, i, j, value: value as u32 };
        let (clear, read) = (StoreCall::ClearCell { slot, i, j }, StoreCall::ReadCell { slot, i, j });
        let [change, back] = match grid.get(i, j) {
            Some(value) => [clear, set(value)],
            None => [set(-9), clear],
        };
        [read.clone(), change, read, back]
    };
    let list = |i| StoreList { store: store.clone(), calls: (0..MAX_SIDE).flat_map(|j| changes(i, j)).collect() };
    (0..grid.rows).map(list).collect()
}

#[cfg(test)]
mod tests {
    use super::*;

    #[test]
    fn the_rows_have_their_entries() {
        let grid = sheet();
        let lengths: Vec<u32> = (0..grid.rows).map(|i| grid.in_row(i) as u32).collect();
        assert_eq!(lengths, LENGTHS);
        assert!(grid.cells.keys().all(|&(_, j)| j < MAX_SIDE));
    }
}
