//! Random lists of calls on the store.

use crate::calls::*;
use crate::fault::Fault;
use crate::generate::*;
use crate::grid::{Grid, MAX_ENTRIES, MAX_SIDE};
use crate::model::{Sheets, SOUND};
use crate::rng::Rng;
use crate::store_grids::{StoreGrids, StoreState, MAX_STORE, SLOTS};

pub fn store_list(rng: &mut Rng) -> StoreList {
    let sides = [1, side(rng).min(rng.pick(&[12, MAX_SIDE])), side(rng).min(40)];
    let mut store = first_store(rng, &sides);
    let is_fresh = store.iter().all(|&word| word == 0);
    let mut state = StoreState::new(&store, Fault::None);
    let mut calls = Vec::new();
    let mut rooms = Vec::new();
    let length = if state.grids.is_some() { 1 + rng.below(28) } else { 1 + rng.below(6) };
    let first_lays = if is_fresh && rng.percent(85) { rng.below(7) } else { 0 };
    while calls.len() < length {
        let next = if calls.len() < first_lays {
            vec![lay(rng, state.grids.as_ref(), &sides)]
        } else {
            next_calls(rng, state.grids.as_ref(), &sides)
        };
        for call in next {
            SOUND.store(&mut state, &call);
            rooms.extend(state.grids.as_ref().map(StoreGrids::room));
            calls.push(call);
        }
    }
    // A length that is exact or short for one of the calls.
    if is_fresh && !rooms.is_empty() && rng.percent(60) {
        let room = rooms[rng.below(rooms.len())];
        let tight = (room + rng.pick(&[0, 0, 1, 2])).saturating_sub(rng.pick(&[0, 0, 1, 1, 2]));
        store.resize(tight.clamp(SLOTS, MAX_STORE), 0);
    }
    StoreList { store, calls }
}

/// The store before the first call: fresh, of an odd length, with sheets in it, or damaged.
fn first_store(rng: &mut Rng, sides: &[u32; 3]) -> Vec<u32> {
    match rng.below(100) {
        0..=5 => {
            let length = rng.pick(&[0, 1, 2, 3, 4, 5, 6, 7, 8, 9, MAX_STORE, MAX_STORE + 1, MAX_STORE + 1]);
            vec![0; length]
        }
        6..=7 => {
            let length = rng.below(40);
            random_words(rng, length)
        }
        8..=19 => {
            let mut words = prepared(rng, sides);
            for _ in 0..rng.between(1, 2) {
                damage_store(rng, &mut words);
            }
            words
        }
        20..=44 => prepared(rng, sides),
        45 => near_most_entries(rng),
        46..=54 => vec![0; SLOTS + rng.below(60)],
        _ => vec![0; rng.pick(&[MAX_STORE, 4000, 700])],
    }
}

/// A store with sheets in some places.
fn prepared(rng: &mut Rng, sides: &[u32; 3]) -> Vec<u32> {
    let mut grids = StoreGrids::fresh(MAX_STORE);
    for slot in 0..SLOTS {
        if rng.percent(35) {
            continue;
        }
        let grid = match rng.below(40) {
            0 => {
                let entries = rng.pick(&[MAX_ENTRIES - 2, MAX_ENTRIES - 1, MAX_ENTRIES]);
                let (rows, cols) = (rng.between(46, 60), rng.between(46, 60));
                grid_of(rng, rows, cols, entries)
            }
            1 => grid_of(rng, MAX_SIDE, MAX_SIDE, MAX_ENTRIES),
            _ => {
                let (rows, cols) = (rng.pick(sides), rng.pick(sides));
                grid(rng, rows, cols)
            }
        };
        grids.slots[slot] = Some(grid);
        if grids.room() > MAX_STORE {
            grids.slots[slot] = None;
        }
    }
    let spare = rng.pick(&[0, 0, 1, 2, 3, 10, 50, 600, MAX_STORE]);
    grids.length = (grids.room() + spare).min(MAX_STORE);
    grids.words()
}

/// Three sheets of one shape; the union of the first two has 2,047 to 2,050 entries.
fn near_most_entries(rng: &mut Rng) -> Vec<u32> {
    let mut grids = StoreGrids::fresh(MAX_STORE);
    let side = rng.between(46, 60);
    let wanted = entries_near_limit(rng);
    let (left, right) = two_parts(rng, (side, side), wanted);
    let entries = rng.below(100);
    let third = grid_of(rng, side, side, entries);
    for grid in [left, right, third] {
        let slot = rng.below(SLOTS);
        grids.slots[slot] = Some(grid);
    }
    grids.length = (grids.room() + rng.pick(&[0, 4, 3000, MAX_STORE])).min(MAX_STORE);
    grids.words()
}

fn damage_store(rng: &mut Rng, words: &mut Vec<u32>) {
    // Where the sections begin.
    let mut counts = vec![0];
    while counts.len() < SLOTS {
        let last = counts[counts.len() - 1];
        match words.get(last) {
            Some(&count) if last + 1 + (count as usize) < words.len() => counts.push(last + 1 + count as usize),
            _ => break,
        }
    }
    let Some(longest) = words.len().checked_sub(1) else {
        return;
    };
    match rng.below(8) {
        0 => words[longest] = rng.pick(&[1, u32::MAX]),
        1 => words.truncate(longest),
        2 => {
            // A section whose count is one word too large, the word being there.
            let at = counts[rng.below(counts.len())].min(longest);
            let end = at + 1 + words[at] as usize;
            if words[at] != 0 && end <= words.len() {
                words[at] += 1;
                words.insert(end, rng.pick(&[0, 1]));
                words.truncate(MAX_STORE);
            }
        }
        3 => {
            let at = counts[rng.below(counts.len())].min(longest);
            words[at] = words[at].wrapping_add(rng.pick(&[1, u32::MAX, 1 << 31]));
        }
        4 | 5 => {
            // Damage within a sheet that keeps its length.
            let at = counts[rng.below(counts.len())].min(longest);
            let count = words[at] as usize;
            if count > 0 && at + 1 + count <= words.len() {
                let mut section = words[at + 1..at + 1 + count].to_vec();
                damage(rng, &mut section);
                section.resize(count, 0);
                words[at + 1..at + 1 + count].copy_from_slice(&section);
            }
        }
        6 => words.resize(MAX_STORE + 1, 0),
        _ => {
            let at = rng.below(words.len());
            words[at] = rng.pick(&[0, 1, 2, 7, u32::MAX]);
        }
    }
}

/// A place: mostly one that holds a sheet, at times none or above 7.
fn slot(rng: &mut Rng, grids: Option<&StoreGrids>) -> usize {
    if rng.once_in(80) {
        return rng.pick(&[8, 8, 9, 1 << 32, (1 << 32) + 3, usize::MAX]);
    }
    let full: Vec<usize> = match grids {
        Some(grids) => (0..SLOTS).filter(|&slot| grids.slots[slot].is_some()).collect(),
        None => Vec::new(),
    };
    if full.is_empty() || rng.percent(3) {
        rng.below(SLOTS)
    } else {
        rng.pick(&full)
    }
}

fn grid_in(grids: Option<&StoreGrids>, slot: usize) -> Option<&Grid> {
    grids?.slots.get(slot)?.as_ref()
}

fn next_calls(rng: &mut Rng, grids: Option<&StoreGrids>, sides: &[u32; 3]) -> Vec<StoreCall> {
    let named = slot(rng, grids);
    let (rows, cols) = grid_in(grids, named).map_or((3, 3), Grid::shape);
    let near = |rng: &mut Rng, side: u32| match rng.below(60) {
        0 => side,
        1 => rng.pick(&[u32::MAX, MAX_SIDE, side + 1]),
        _ => rng.below(side as usize) as u32,
    };
    let (i, j) = (near(rng, rows), near(rng, cols));
    match rng.below(100) {
        0..=13 => vec![lay(rng, grids, sides)],
        14..=18 => vec![StoreCall::Drop { slot: if rng.percent(20) { rng.below(SLOTS) } else { named } }],
        19..=43 => vec![StoreCall::SetCell { slot: named, i, j, value: value(rng) as u32 }],
        44..=50 => vec![StoreCall::ClearCell { slot: named, i, j }],
        51..=55 => vec![StoreCall::ReadCell { slot: named, i, j }],
        56..=60 => vec![StoreCall::Reduce { slot: named, monoid: any_monoid(rng) }],
        _ => operation_calls(rng, grids),
    }
}

fn lay(rng: &mut Rng, grids: Option<&StoreGrids>, sides: &[u32; 3]) -> StoreCall {
    let slot = if rng.percent(75) { rng.below(SLOTS) } else { slot(rng, grids) };
    let (mut rows, mut cols) = (rng.pick(sides), rng.pick(sides));
    if rng.once_in(15) {
        let odd = rng.pick(&[0, MAX_SIDE, MAX_SIDE, MAX_SIDE + 1, u32::MAX]);
        if rng.percent(50) {
            rows = odd;
        } else {
            cols = odd;
        }
    }
    StoreCall::NewEmpty { slot, rows, cols }
}

/// An operation, at times after a lay that makes a C of its shape.
fn operation_calls(rng: &mut Rng, grids: Option<&StoreGrids>) -> Vec<StoreCall> {
    let mut options = options(rng);
    let mut operation = operation(rng);
    let mut work = work(rng);
    let mut calls = Vec::new();
    let [mut a, mut b, mut mask, mut c] = [(); 4].map(|()| slot(rng, grids));
    if rng.percent(8) {
        (b, mask, c) = (a, a, a);
    }
    // Some tries for inputs that agree.
    for _ in 0..12 {
        if inputs_agree(grids, &operation, &options, [a, b, c]) {
            break;
        }
        (a, b) = (slot(rng, grids), slot(rng, grids));
    }
    if let (Operation::Assign { rows, cols }, Some(grid)) = (&mut operation, grid_in(grids, a)) {
        let (height, width) = grid_in(grids, c).map_or((2, 2), Grid::shape);
        let shape = grid.transposed_if(options.has(TRANSPOSE_FIRST)).shape();
        *rows = index_list(rng, shape.0 as usize, height);
        *cols = index_list(rng, shape.1 as usize, width);
    }
    if let (Operation::Extract { rows, cols }, Some(grid)) = (&mut operation, grid_in(grids, a)) {
        let shape = grid_in(grids, c).map_or((2, 2), Grid::shape);
        let (height, width) = grid.transposed_if(options.has(TRANSPOSE_FIRST)).shape();
        *rows = index_list(rng, shape.0.min(height) as usize, height);
        *cols = index_list(rng, shape.1.min(width) as usize, width);
    }
    if let (Some(grids), Some(shape)) = (grids, shape_of_t(grids, &operation, &options, [a, b, c])) {
        let fitting: Vec<usize> =
            (0..SLOTS).filter(|&slot| grids.slots[slot].as_ref().is_some_and(|grid| grid.shape() == shape)).collect();
        if !fitting.is_empty() && rng.percent(95) {
            if !fitting.contains(&c) {
                c = rng.pick(&fitting);
            }
            mask = rng.pick(&fitting);
        } else if rng.percent(70) {
            c = rng.below(SLOTS);
            if c != a && c != b {
                calls.push(StoreCall::NewEmpty { slot: c, rows: shape.0, cols: shape.1 });
                options.has_mask = false;
            }
        }
    }
    if !options.has_mask && rng.percent(30) {
        mask = rng.pick(&[8, 100, usize::MAX]);
    }
    if rng.percent(12) {
        for _ in 0..rng.between(1, 3) {
            spoil_numbers(rng, &mut operation, &mut options, &mut work);
        }
    }
    if rng.percent(5) {
        let role = rng.below(4);
        *[&mut a, &mut b, &mut mask, &mut c][role] = rng.below(SLOTS);
    }
    calls.push(StoreCall::Operation(StoreOperation { operation, options, a, b, mask, c, work }));
    calls
}

/// T's shape; without a sheet in C's place that of A stands for it.
fn shape_of_t(
    grids: Option<&StoreGrids>,
    operation: &Operation,
    options: &Options,
    [a, b, c]: [usize; 3],
) -> Option<(u32, u32)> {
    let a = grid_in(grids, a)?;
    let b = if operation.has_second() { Some(grid_in(grids, b)?) } else { None };
    let c = grid_in(grids, c).unwrap_or(a);
    SOUND.shape_of_t(operation, options, &Sheets { a, b, mask: None, c })
}

/// Whether the inputs' shapes agree; for an assign, whose lists are still empty, whether A is no larger than C.
fn inputs_agree(grids: Option<&StoreGrids>, operation: &Operation, options: &Options, named: [usize; 3]) -> bool {
    let [a, _, c] = named.map(|slot| grid_in(grids, slot));
    match (operation, a, c) {
        (Operation::Assign { .. }, Some(a), Some(c)) => {
            let a = a.transposed_if(options.has(TRANSPOSE_FIRST));
            a.rows <= c.rows && a.cols <= c.cols
        }
        _ => shape_of_t(grids, operation, options, named).is_some(),
    }
}
