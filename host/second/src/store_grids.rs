//! The eight plain grids of a store ("a wall of eight plain grids"), and the store's words.

use crate::calls::*;
use crate::fault::Fault;
use crate::grid::{Grid, MAX_ENTRIES};
use crate::model::{Model, Sheets};

pub const SLOTS: usize = 8;
pub const MAX_STORE: usize = 16_384;

const ORDER: [u32; 9] = [12, 1, 2, 13, 7, 8, 9, 10, 11];

/// Eight grids and the store's length.
#[derive(Clone, PartialEq, Eq, Debug)]
pub struct StoreGrids {
    pub length: usize,
    pub slots: [Option<Grid>; SLOTS],
}

impl StoreGrids {
    pub fn fresh(length: usize) -> Self {
        StoreGrids { length, slots: Default::default() }
    }

    /// 8 plus the sizes of all grids.
    pub fn room(&self) -> usize {
        SLOTS + self.slots.iter().flatten().map(Grid::size).sum::<usize>()
    }

    /// 8 plus the sizes of all grids but one.
    fn room_beside(&self, slot: usize) -> usize {
        self.room() - self.slots[slot].as_ref().map_or(0, Grid::size)
    }

    /// The words of the sections, without the zeros behind them.
    fn sections(&self) -> Vec<u32> {
        let mut words = Vec::new();
        for slot in &self.slots {
            match slot {
                None => words.push(0),
                Some(grid) => {
                    words.push(grid.size() as u32);
                    words.extend(grid.words());
                }
            }
        }
        words
    }

    /// The one writing of the grids.
    pub fn words(&self) -> Vec<u32> {
        let mut words = self.sections();
        words.resize(self.length, 0);
        words
    }

    /// The grids that the words are the writing of, where they are a store.
    pub fn read(words: &[u32], fault: Fault) -> Option<Self> {
        let least = SLOTS + usize::from(fault == Fault::ShortestStoreRefused);
        let most = MAX_STORE + usize::from(fault == Fault::LongerStoreAccepted);
        if !(least..=most).contains(&words.len()) {
            return None;
        }
        let mut grids = StoreGrids::fresh(words.len());
        let mut rest = words;
        for slot in &mut grids.slots {
            let (&count, behind) = rest.split_first()?;
            let section = behind.get(..count as usize)?;
            rest = &behind[section.len()..];
            if count != 0 {
                let grid = Grid::read(section, fault)?;
                if grid.size() != section.len() && fault != Fault::StoreCountLarger {
                    return None;
                }
                *slot = Some(grid);
            }
        }
        let tail_is_zero = rest.iter().all(|&word| word == 0);
        (tail_is_zero || fault == Fault::StoreTailFree).then_some(grids)
    }
}

/// A store's words beside the grids that they are the writing of, where they are a store.
#[derive(Clone)]
pub struct StoreState {
    pub words: Vec<u32>,
    pub grids: Option<StoreGrids>,
}

impl StoreState {
    pub fn new(words: &[u32], fault: Fault) -> Self {
        StoreState { words: words.to_vec(), grids: StoreGrids::read(words, fault) }
    }
}

impl Model {
    /// Carries out one call on the store.
    pub fn store(&self, state: &mut StoreState, call: &StoreCall) -> Outcome {
        let before = state.grids.clone();
        let answer = self.store_answer(state.grids.as_mut(), call);
        if self.has(Fault::RevisionOnRefusal) && code_of(answer) != 0 {
            revise_written(state.grids.as_mut(), call);
        }
        if let (Some(grids), true) = (&state.grids, state.grids != before) {
            let mut words = grids.words();
            if self.has(Fault::StoreTailStale) {
                let end = grids.sections().len();
                words.truncate(end);
                words.extend(state.words.iter().skip(end));
            }
            // A planted fault may let sheets pass that do not fit.
            words.resize(state.words.len(), 0);
            state.words = words;
        }
        let mut buffers = vec![Buffer::new("store", state.words.clone())];
        if let StoreCall::Operation(call) = call {
            buffers.extend(self.side_buffers(&call.operation, &call.work, answer));
        }
        Outcome { answer, buffers }
    }

    fn store_answer(&self, grids: Option<&mut StoreGrids>, call: &StoreCall) -> u64 {
        if let StoreCall::Operation(call) = call {
            return self.store_operation(grids, call);
        }
        let (StoreCall::NewEmpty { slot, .. }
        | StoreCall::Drop { slot }
        | StoreCall::SetCell { slot, .. }
        | StoreCall::ClearCell { slot, .. }
        | StoreCall::ReadCell { slot, .. }
        | StoreCall::Reduce { slot, .. }
        | StoreCall::Operation(StoreOperation { a: slot, .. })) = call;
        let slot = *slot;
        let Some(grids) = grids.filter(|_| slot < SLOTS) else {
            return counted(12, 0);
        };
        match call {
            StoreCall::NewEmpty { rows, cols, .. } => self.store_new_empty(grids, slot, *rows, *cols),
            StoreCall::Drop { .. } => {
                if self.has(Fault::DropAbsentRefused) && grids.slots[slot].is_none() {
                    return counted(13, 0);
                }
                grids.slots[slot] = None;
                counted(0, 0)
            }
            StoreCall::SetCell { i, j, value, .. } => self.store_set_cell(grids, slot, (*i, *j), *value as i32),
            StoreCall::ClearCell { i, j, .. } => match &mut grids.slots[slot] {
                None => counted(13, 0),
                Some(grid) if *i >= grid.rows || *j >= grid.cols => counted(7, 0),
                Some(grid) => {
                    let was_there = grid.cells.remove(&(*i, *j)).is_some();
                    if self.has(Fault::ClearAbsentRefused) && !was_there {
                        return counted(7, 0);
                    }
                    grid.revision = self.next_revision(grid.revision, was_there);
                    counted(0, grid.cells.len())
                }
            },
            StoreCall::ReadCell { i, j, .. } => match &grids.slots[slot] {
                None => counted(13, 0),
                Some(grid) if *i >= grid.rows || *j >= grid.cols => counted(7, 0),
                Some(grid) => self.read_answer(grid, *i, *j),
            },
            StoreCall::Reduce { monoid, .. } => self.total(grids.slots[slot].as_ref(), *monoid, 13),
            StoreCall::Operation(_) => unreachable!("answered above"),
        }
    }

    /// Whether a sheet of this size fits in the place's stead.
    fn fits(&self, grids: &StoreGrids, slot: usize, size: usize) -> bool {
        let beside = match self.fault {
            Fault::StoreRoomOldToo => grids.room(),
            Fault::StoreRoomOneMore => grids.room_beside(slot) + 1,
            _ => grids.room_beside(slot),
        };
        beside + size <= grids.length
    }

    fn store_new_empty(&self, grids: &mut StoreGrids, slot: usize, rows: u32, cols: u32) -> u64 {
        if !self.is_shape(rows, cols) {
            return counted(8, 0);
        }
        let grid = self.laid(grids.slots[slot].as_ref(), rows, cols);
        if !self.fits(grids, slot, grid.size()) {
            if self.has(Fault::RefusedLayDrops) {
                grids.slots[slot] = None;
            }
            return counted(11, 0);
        }
        grids.slots[slot] = Some(grid);
        counted(0, 0)
    }

    fn store_set_cell(&self, grids: &mut StoreGrids, slot: usize, at: (u32, u32), value: i32) -> u64 {
        let Some(mut grid) = grids.slots[slot].clone() else {
            return counted(13, 0);
        };
        if at.0 >= grid.rows || at.1 >= grid.cols {
            return counted(7, 0);
        }
        let one_more = grid.cells.len() + 1;
        let before = grid.cells.insert(at, value);
        grid.revision = self.next_revision(grid.revision, before != Some(value));
        let entries = if self.has(Fault::SetCountsExisting) { one_more } else { grid.cells.len() };
        if entries > MAX_ENTRIES {
            return counted(10, 0);
        }
        if !self.fits(grids, slot, grid.size()) {
            return counted(11, 0);
        }
        let entries = grid.cells.len();
        grids.slots[slot] = Some(grid);
        counted(0, entries)
    }

    fn store_operation(&self, grids: Option<&mut StoreGrids>, call: &StoreOperation) -> u64 {
        let StoreOperation { operation, options, .. } = call;
        let mut applying = self.number_refusals(operation, options);
        let mut roles = vec![call.a, call.c];
        if operation.has_second() {
            roles.push(call.b);
        }
        if options.has_mask || self.has(Fault::AbsentMaskRead) {
            roles.push(call.mask);
        }
        let grids = grids.filter(|_| roles.iter().all(|&slot| slot < SLOTS));
        let Some(grids) = grids else {
            applying.push(12);
            return counted(self.first_refusal(&applying, &ORDER).unwrap_or(0), 0);
        };
        if self.has(Fault::EmptyMaskAccepted) && options.has_mask && grids.slots[call.mask].is_none() {
            roles.pop();
        }
        if roles.iter().any(|&slot| grids.slots[slot].is_none()) {
            applying.push(13);
        }
        let [a, c] = [call.a, call.c].map(|slot| grids.slots[slot].as_ref());
        if self.has_bad_list(operation, options, a, c) {
            applying.push(7);
        }
        if self.has_short_work(&call.work) {
            applying.push(9);
        }
        if let (Some(a), Some(c), false) = (a, &grids.slots[call.c], applying.contains(&13)) {
            let b = if operation.has_second() { grids.slots[call.b].as_ref() } else { None };
            let mask = if options.has_mask { grids.slots[call.mask].as_ref() } else { None };
            let sheets = Sheets { a, b, mask, c };
            if self.has_other_shapes(operation, options, &sheets) {
                applying.push(8);
            }
            // There is a final C if nothing but the work buffer is wrong.
            if applying.iter().all(|&code| code == 9) {
                let mut result = self.final_c(operation, options, &sheets);
                if self.has(Fault::RevisionPerRole) {
                    let more = roles.iter().filter(|&&slot| slot == call.c).count() - 1;
                    result.grid.revision = result.grid.revision.wrapping_add(more as u32);
                }
                if self.has_too_many(&result) {
                    applying.push(10);
                }
                if !self.fits(grids, call.c, result.grid.size()) {
                    applying.push(11);
                }
                if applying.is_empty() {
                    let answer = counted(0, self.count(&result));
                    grids.slots[call.c] = Some(result.grid);
                    return answer;
                }
            }
        }
        counted(self.first_refusal(&applying, &ORDER).unwrap_or(0), 0)
    }
}

/// One more for the revision of the place that the call is to write into.
fn revise_written(grids: Option<&mut StoreGrids>, call: &StoreCall) {
    let (StoreCall::NewEmpty { slot, .. }
    | StoreCall::SetCell { slot, .. }
    | StoreCall::ClearCell { slot, .. }
    | StoreCall::Operation(StoreOperation { c: slot, .. })) = call
    else {
        return;
    };
    if let Some(Some(grid)) = grids.and_then(|grids| grids.slots.get_mut(*slot)) {
        grid.revision = grid.revision.wrapping_add(1);
    }
}

#[cfg(test)]
mod tests {
    use super::*;
    use crate::model::SOUND;

    fn answers(state: &mut StoreState, calls: &[StoreCall]) -> Vec<u64> {
        calls.iter().map(|call| SOUND.store(state, call).answer).collect()
    }

    #[test]
    fn lengths_of_a_fresh_store() {
        for (length, valid) in [(0, false), (7, false), (8, true), (16_384, true), (16_385, false)] {
            let state = StoreState::new(&vec![0; length], SOUND.fault);
            assert_eq!(state.grids.is_some(), valid, "{length} words");
        }
    }

    #[test]
    fn room_is_exact() {
        // 8 words and a sheet of 1 row with 1 entry, in place 1.
        let calls = [
            StoreCall::NewEmpty { slot: 1, rows: 1, cols: 4 },
            StoreCall::SetCell { slot: 1, i: 0, j: 3, value: 5 },
            StoreCall::SetCell { slot: 1, i: 0, j: 3, value: 6 },
            StoreCall::SetCell { slot: 1, i: 0, j: 2, value: 6 },
            StoreCall::ReadCell { slot: 1, i: 0, j: 3 },
            StoreCall::ClearCell { slot: 1, i: 0, j: 2 },
        ];
        let mut state = StoreState::new(&[0; 20], SOUND.fault);
        let expected =
            [counted(0, 0), counted(0, 1), counted(0, 1), counted(11, 0), present_or_absent(Some(6), 0), counted(0, 1)];
        assert_eq!(answers(&mut state, &calls), expected);
        assert_eq!(state.words, [0, 12, 1, 3, 2, 1, 4, 2, 0, 1, 1, 3, 1, 6, 0, 0, 0, 0, 0, 0]);

        let mut state = StoreState::new(&[0; 19], SOUND.fault);
        assert_eq!(answers(&mut state, &calls[..2]), [counted(0, 0), counted(11, 0)]);
    }

    /// Laid, set, set to what it is, refused, read, cleared though empty; laid again.
    #[test]
    fn revisions() {
        let mut state = StoreState::new(&[0; 30], SOUND.fault);
        let (set, clear) =
            (|j| StoreCall::SetCell { slot: 2, i: 0, j, value: 5 }, |j| StoreCall::ClearCell { slot: 2, i: 0, j });
        let lay = StoreCall::NewEmpty { slot: 2, rows: 1, cols: 4 };
        let read = StoreCall::ReadCell { slot: 2, i: 0, j: 3 };
        let steps = [(lay.clone(), 0), (set(3), 1), (set(3), 2), (set(4), 2), (read, 2), (clear(1), 3), (lay, 0)];
        for (call, revision) in steps {
            SOUND.store(&mut state, &call);
            assert_eq!(
                state.grids.as_ref().and_then(|grids| grids.slots[2].as_ref()).map(|grid| grid.revision),
                Some(revision)
            );
        }
    }

    #[test]
    fn refusals_of_cell_calls() {
        let mut state = StoreState::new(&[0; 30], SOUND.fault);
        let calls = [
            StoreCall::NewEmpty { slot: 8, rows: 0, cols: 1 },
            StoreCall::NewEmpty { slot: 0, rows: 1001, cols: 1 },
            StoreCall::NewEmpty { slot: 0, rows: 1000, cols: 1 },
            StoreCall::ClearCell { slot: 0, i: 0, j: 0 },
            StoreCall::Drop { slot: 0 },
            StoreCall::NewEmpty { slot: 0, rows: 2, cols: 2 },
            StoreCall::ReadCell { slot: 0, i: 0, j: 2 },
        ];
        let codes: Vec<u32> = answers(&mut state, &calls).into_iter().map(code_of).collect();
        assert_eq!(codes, [12, 8, 11, 13, 0, 0, 7]);
    }
}
