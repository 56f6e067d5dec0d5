//! What random calls have in common: values, sheets, options, damage.

use crate::calls::*;
use crate::grid::{Grid, MAX_ENTRIES, MAX_LIST, MAX_SIDE};
use crate::rng::Rng;

pub fn value(rng: &mut Rng) -> i32 {
    match rng.below(10) {
        0 | 1 => 0,
        2..=5 => rng.between(0, 10) as i32 - 5,
        6 | 7 => rng.pick(&[i32::MIN, i32::MIN + 1, i32::MAX, i32::MAX - 1, -1, 1]),
        8 => rng.pick(&[46_341, -46_341, 65_536, -65_536, 32_768, 1 << 30]),
        _ => rng.word() as i32,
    }
}

pub fn side(rng: &mut Rng) -> u32 {
    match rng.below(1000) {
        0..=849 => rng.between(1, 5),
        850..=969 => rng.between(1, 24),
        970..=989 => rng.between(1, MAX_SIDE),
        _ => rng.pick(&[MAX_SIDE - 1, MAX_SIDE]),
    }
}

/// A revision, at times near its end.
fn revision(rng: &mut Rng) -> u32 {
    match rng.below(8) {
        0 | 1 => rng.pick(&[u32::MAX, u32::MAX, u32::MAX - 1]),
        2 => rng.word(),
        _ => rng.between(0, 3),
    }
}

/// A grid with this many entries at random places.
pub fn grid_of(rng: &mut Rng, rows: u32, cols: u32, entries: usize) -> Grid {
    let places = rows as usize * cols as usize;
    let entries = entries.min(places);
    let mut grid = Grid { revision: revision(rng), ..Grid::empty(rows, cols) };
    if 2 * entries > places {
        // Walk over all places and take each with the chance that is left.
        let mut wanted = entries;
        for at in 0..places {
            if rng.below(places - at) < wanted {
                grid.cells.insert((at as u32 / cols, at as u32 % cols), value(rng));
                wanted -= 1;
            }
        }
    }
    while grid.cells.len() < entries {
        grid.cells.insert((rng.below(rows as usize) as u32, rng.below(cols as usize) as u32), value(rng));
    }
    grid
}

/// Numbers of entries on both sides of the limit.
pub fn entries_near_limit(rng: &mut Rng) -> usize {
    let most = MAX_ENTRIES;
    rng.pick(&[most - 1, most, most, most + 1, most + 1, most + 2])
}

pub fn grid(rng: &mut Rng, rows: u32, cols: u32) -> Grid {
    let most = (rows as usize * cols as usize).min(MAX_ENTRIES);
    let entries = match rng.below(20) {
        0 | 1 => 0,
        2 | 3 => most,
        4 => rng.below(most + 1),
        5..=9 => rng.below(most.min(60) + 1),
        _ => rng.below(most.min(12) + 1),
    };
    grid_of(rng, rows, cols, entries)
}

/// Two grids whose union has as many entries as wanted.
pub fn two_parts(rng: &mut Rng, shape: (u32, u32), wanted: usize) -> (Grid, Grid) {
    let whole = grid_of(rng, shape.0, shape.1, wanted);
    let (mut left, mut right) = (Grid::empty(shape.0, shape.1), Grid::empty(shape.0, shape.1));
    for (at, value) in whole.cells {
        let part = rng.below(4);
        if part != 0 {
            left.cells.insert(at, value);
        }
        if part <= 1 {
            right.cells.insert(at, value.wrapping_add(1));
        }
    }
    (left, right)
}

pub fn random_words(rng: &mut Rng, count: usize) -> Vec<u32> {
    (0..count).map(|_| rng.word()).collect()
}

/// A sheet and, at times, spare words behind it.
pub fn sheet(rng: &mut Rng, grid: &Grid) -> Vec<u32> {
    let mut words = grid.words();
    if rng.percent(35) {
        let spare = rng.below(7);
        words.extend(random_words(rng, spare));
    }
    words
}

pub fn options(rng: &mut Rng) -> Options {
    let flags = (0..5).map(|bit| u32::from(rng.percent(35)) << bit).sum();
    let has_accumulator = rng.percent(40);
    let accumulator = if has_accumulator || rng.percent(50) { rng.between(0, 7) } else { rng.word() };
    let yes = if rng.once_in(10) { rng.pick(&[2, 256, 1 << 31, u32::MAX]) } else { 1 };
    Options { flags, has_mask: rng.percent(50), has_accumulator, accumulator, yes }
}

/// An operation with known numbers; index lists are still empty.
pub fn operation(rng: &mut Rng) -> Operation {
    let op = rng.between(0, 7);
    let monoid = rng.pick(&[3, 5, 6, 7]);
    match rng.below(10) {
        0 => Operation::Mxm { monoid, op },
        1 => Operation::Vxm { monoid, op },
        2 => Operation::EwiseMult { op },
        3 => Operation::EwiseAdd { op },
        4 => {
            let kind = rng.between(0, 3);
            let op = match kind {
                0 => rng.between(0, 4),
                3 => rng.between(0, 2),
                _ => op,
            };
            Operation::Apply { kind, op, scalar: value(rng) as u32 }
        }
        5 => Operation::Select { op, scalar: select_scalar(rng, op) as u32 },
        6 => Operation::ReduceRows { monoid },
        7 => Operation::Assign { rows: Vec::new(), cols: Vec::new() },
        8 => Operation::Kronecker { op },
        _ => Operation::Extract { rows: Vec::new(), cols: Vec::new() },
    }
}

/// Small scalars for the triangles, near the differences of rows and columns, and the ends of the range.
fn select_scalar(rng: &mut Rng, op: u32) -> i32 {
    match rng.below(4) {
        0 => rng.pick(&[i32::MIN, i32::MIN + 1, i32::MAX - 1, i32::MAX]),
        1 | 2 if op >= 6 => rng.between(0, 8) as i32 - 4,
        _ => value(rng),
    }
}

/// A monoid's number, at times none.
pub fn any_monoid(rng: &mut Rng) -> u32 {
    match rng.once_in(8) {
        true => rng.pick(&[0, 1, 2, 4, 4, 8, 8, 256, u32::MAX]),
        false => rng.pick(&[3, 5, 6, 7]),
    }
}

/// An index list of this length into this many rows or columns, at times in order. An index occurs twice in one list of
/// twenty, and where the list is longer than `side`.
pub fn index_list(rng: &mut Rng, length: usize, side: u32) -> Vec<u32> {
    let mut list: Vec<u32> = (0..side.max(length as u32)).map(|index| index % side).collect();
    if rng.percent(85) {
        for at in 0..length {
            let other = at + rng.below(list.len() - at);
            list.swap(at, other);
        }
    }
    list.truncate(length);
    if length > 1 && rng.once_in(20) {
        repeat_index(rng, &mut list);
    }
    list
}

/// One index of a list in the place of another.
fn repeat_index(rng: &mut Rng, list: &mut [u32]) {
    let (from, to) = (rng.below(list.len()), rng.below(list.len()));
    list[to] = list[from];
}

pub fn work(rng: &mut Rng) -> Work {
    let length = match rng.below(20) {
        0 => WORK_WORDS + 1 + rng.below(64),
        1 => WORK_WORDS + rng.below(4000),
        _ => WORK_WORDS,
    };
    Work { length, seed: rng.next() }
}

/// Puts a number that is refused, or a list or work buffer that is, into an operation.
pub fn spoil_numbers(rng: &mut Rng, operation: &mut Operation, options: &mut Options, work: &mut Work) {
    match rng.below(6) {
        0 => options.flags = rng.pick(&[32, 32, 33, 33, 63, 64, 1 << 31, u32::MAX]),
        1 => {
            options.has_accumulator = rng.percent(70);
            options.accumulator = rng.pick(&[8, 8, 9, 256, u32::MAX]);
        }
        2 => work.length = rng.pick(&[WORK_WORDS - 1, WORK_WORDS - 1, WORK_WORDS - 1, 0, 1, 100]),
        _ => spoil_operation(rng, operation),
    }
}

fn spoil_operation(rng: &mut Rng, operation: &mut Operation) {
    let not_binary = rng.pick(&[8, 8, 9, 255, 256, u32::MAX]);
    match operation {
        Operation::Mxm { monoid, op } | Operation::Vxm { monoid, op } => {
            if rng.percent(40) {
                *op = not_binary;
            }
            if rng.percent(60) {
                *monoid = rng.pick(&[0, 1, 2, 4, 4, 8, u32::MAX]);
            }
        }
        Operation::EwiseMult { op }
        | Operation::EwiseAdd { op }
        | Operation::Select { op, .. }
        | Operation::Kronecker { op } => *op = not_binary,
        Operation::ReduceRows { monoid } => *monoid = rng.pick(&[0, 1, 2, 4, 4, 8, u32::MAX]),
        Operation::Apply { kind, op, .. } => match rng.below(3) {
            0 => *kind = rng.pick(&[4, 4, 5, 256, u32::MAX]),
            _ => {
                *op = match kind {
                    0 => rng.pick(&[5, 5, 6, 7, u32::MAX]),
                    3 => rng.pick(&[3, 3, 4, 7, u32::MAX]),
                    _ => not_binary,
                }
            }
        },
        Operation::Extract { rows, cols } | Operation::Assign { rows, cols } => {
            let list = if rng.percent(50) { rows } else { cols };
            match rng.below(7) {
                0 => list.clear(),
                1 => list.resize(MAX_LIST + 1, 0),
                2 => *list = (0..MAX_LIST as u32).collect(),
                3 => list.push(0),
                4 if !list.is_empty() => repeat_index(rng, list),
                _ if list.is_empty() => list.push(rng.pick(&[1, MAX_SIDE, u32::MAX])),
                _ => {
                    let at = rng.below(list.len());
                    list[at] = match rng.below(3) {
                        0 => rng.pick(&[MAX_SIDE, MAX_SIDE + 1, 1 << 31, u32::MAX]),
                        1 => list[at].wrapping_add(1),
                        _ => rng.between(0, 12),
                    };
                }
            }
        }
    }
}

/// Damages the words of a sheet; now and then it stays valid.
pub fn damage(rng: &mut Rng, words: &mut Vec<u32>) {
    if words.len() < 10 || rng.once_in(25) {
        let length = rng.below(30);
        *words = random_words(rng, length);
        return;
    }
    match rng.below(18) {
        0 => words[0] = rng.pick(&[0, 2, 3, u32::MAX]),
        1 => drop(words.drain(..2)),
        _ => {
            let mut behind = words.split_off(2);
            damage_behind(rng, &mut behind);
            words.append(&mut behind);
        }
    }
}

/// Damages the words of a sheet behind the revision.
fn damage_behind(rng: &mut Rng, words: &mut Vec<u32>) {
    let rows = words[1] as usize;
    match rng.below(16) {
        0 => words.truncate(rng.below(words.len())),
        1 => words[0] = rng.pick(&[0, 1, 3, u32::MAX]),
        2 => words[1] = rng.pick(&[0, MAX_SIDE + 1, u32::MAX, u32::MAX - 6, 1 << 31]),
        3 => words[2] = rng.pick(&[0, MAX_SIDE + 1, 1, MAX_SIDE, u32::MAX]),
        4 => words[3] = words[3].wrapping_add(rng.pick(&[1, u32::MAX])),
        5 => words[4] = rng.pick(&[1, u32::MAX]),
        6 => *words = too_large(rng).split_off(2),
        7 if 5 + rows < words.len() => {
            // N alone, with the sum of sizes wrapping for some of the choices.
            let n = words[5 + rows];
            words[5 + rows] =
                rng.pick(&[n.wrapping_add(1), n.wrapping_sub(1), 1 << 31, u32::MAX, MAX_ENTRIES as u32 + 1]);
        }
        8 if 5 + rows < words.len() => {
            let second = (6 + rows).saturating_add(words[5 + rows] as usize);
            if let Some(count) = words.get_mut(second) {
                *count = count.wrapping_add(rng.pick(&[1, u32::MAX, 1 << 31]));
            }
        }
        9 | 10 if 5 + rows < words.len() => {
            let at = 4 + rng.below(rows + 1);
            words[at] = words[at].wrapping_add(rng.pick(&[1, 1, u32::MAX, 2]));
        }
        11..=14 if 6 + rows < words.len() => {
            let entries = words[5 + rows] as usize;
            let at = 6 + rows + rng.below(entries);
            let cols = words[2];
            if at < words.len() && entries > 0 {
                words[at] = match rng.below(4) {
                    0 => cols,
                    1 => words[at - 1],
                    2 => words[at].wrapping_sub(1),
                    _ => rng.pick(&[u32::MAX, MAX_SIDE, 0]),
                };
            }
        }
        _ => {
            let at = rng.below(words.len());
            words[at] = rng.pick(&[0, 1, 2, 3, u32::MAX]);
        }
    }
}

/// A sheet that is in order but for its size.
fn too_large(rng: &mut Rng) -> Vec<u32> {
    let (rows, cols, entries) = match rng.below(3) {
        0 => (MAX_SIDE + 1, rng.between(1, 4), 3),
        1 => (rng.between(1, 4), MAX_SIDE + 1, 3),
        _ => (rng.between(46, 60), rng.between(46, 60), MAX_ENTRIES + 1),
    };
    grid_of(rng, rows, cols, entries).words()
}
