//! Random calls on lent sheets.

use crate::calls::*;
use crate::generate::*;
use crate::grid::{Grid, MAX_ENTRIES, MAX_SIDE, MAX_WORDS};
use crate::model::{Sheets, SOUND};
use crate::rng::Rng;

pub fn lent_call(rng: &mut Rng) -> LentCall {
    match rng.below(100) {
        0..=7 => LentCall::Check { words: lone_buffer(rng) },
        8..=12 => new_empty(rng),
        13..=18 => {
            let words = lone_buffer(rng);
            let near = |rng: &mut Rng, side: Option<&u32>| {
                let side = side.copied().unwrap_or(1).min(MAX_SIDE + 1);
                match rng.below(10) {
                    0 => side,
                    1 => rng.pick(&[u32::MAX, MAX_SIDE, side + 1]),
                    _ => rng.below(side as usize) as u32,
                }
            };
            let (i, j) = (near(rng, words.get(3)), near(rng, words.get(4)));
            LentCall::ReadCell { words, i, j }
        }
        19..=24 => row_view(rng),
        25..=29 => LentCall::Reduce { words: lone_buffer(rng), monoid: any_monoid(rng) },
        _ => LentCall::Operation(operation_call(rng)),
    }
}

pub fn lone_buffer(rng: &mut Rng) -> Vec<u32> {
    let (rows, cols) = (side(rng), side(rng));
    let entries = rng.pick(&[MAX_ENTRIES - 1, MAX_ENTRIES, MAX_ENTRIES]);
    let grid = if rng.once_in(60) { grid_of(rng, MAX_SIDE, MAX_SIDE, entries) } else { grid(rng, rows, cols) };
    let mut words = sheet(rng, &grid);
    if rng.percent(45) {
        damage(rng, &mut words);
    }
    words
}

/// Mostly two valid sheets of one shape, with many empty rows.
fn row_view(rng: &mut Rng) -> LentCall {
    let (rows, cols) = (side(rng), side(rng));
    let sheet_of = |rng: &mut Rng| {
        let rows = if rng.once_in(12) { side(rng) } else { rows };
        let cols = if rng.once_in(12) { side(rng) } else { cols };
        let grid = match rng.below(4) {
            0 => grid(rng, rows, cols),
            _ => {
                let entries = rng.below((2 * rows as usize).min(rows as usize * cols as usize) + 1);
                grid_of(rng, rows, cols, entries)
            }
        };
        let mut words = sheet(rng, &grid);
        if rng.once_in(12) {
            damage(rng, &mut words);
        }
        words
    };
    let (first, second) = (sheet_of(rng), sheet_of(rng));
    let i = match rng.below(12) {
        0 => rng.pick(&[rows, rows + 1, u32::MAX]),
        _ => rng.below(rows as usize) as u32,
    };
    LentCall::RowView { first, second, i, values: rng.pick(&[0, 0, 0, 1, 1, u32::MAX]) }
}

fn new_empty(rng: &mut Rng) -> LentCall {
    let any_side = |rng: &mut Rng| match rng.below(10) {
        0 => rng.pick(&[0, MAX_SIDE, MAX_SIDE + 1, u32::MAX, 1 << 31]),
        1 => rng.pick(&[MAX_SIDE - 1, MAX_SIDE, MAX_SIDE]),
        _ => rng.between(1, 20),
    };
    let (rows, cols) = (any_side(rng), any_side(rng));
    let exact = if rows <= MAX_SIDE + 1 { rows as usize + 9 } else { 30 };
    let length = match rng.below(5) {
        0 => exact - 1,
        1 => exact,
        2 => exact + 1,
        3 => exact + rng.below(20),
        _ => rng.below(exact + 20),
    };
    LentCall::NewEmpty { words: random_words(rng, length), rows, cols }
}

/// Shapes of the inputs as stored and of C.
struct Shapes {
    a: (u32, u32),
    b: (u32, u32),
    c: (u32, u32),
}

fn turned(shape: (u32, u32), turn: bool) -> (u32, u32) {
    if turn {
        (shape.1, shape.0)
    } else {
        shape
    }
}

/// Fitting shapes from the sides m, k, n; fills the index lists.
fn fit(rng: &mut Rng, operation: &mut Operation, options: &Options, [m, k, n]: [u32; 3]) -> Shapes {
    let (first, second) = (options.has(TRANSPOSE_FIRST), options.has(TRANSPOSE_SECOND));
    match operation {
        Operation::Mxm { .. } => Shapes { a: turned((m, k), first), b: turned((k, n), second), c: (m, n) },
        Operation::Vxm { .. } => Shapes { a: (1, k), b: turned((k, n), second), c: (1, n) },
        Operation::EwiseMult { .. } | Operation::EwiseAdd { .. } => {
            Shapes { a: turned((m, n), first), b: turned((m, n), second), c: (m, n) }
        }
        Operation::Apply { .. } | Operation::Select { .. } => Shapes { a: turned((m, n), first), b: (1, 1), c: (m, n) },
        Operation::ReduceRows { .. } => Shapes { a: turned((m, n), first), b: (1, 1), c: (1, m) },
        Operation::Extract { rows, cols } => {
            // No index occurs twice in lists that are no longer than A's sides.
            let (height, width) = (k.max(m), side(rng).max(n));
            *rows = index_list(rng, m as usize, height);
            *cols = index_list(rng, n as usize, width);
            Shapes { a: turned((height, width), first), b: (1, 1), c: (m, n) }
        }
        Operation::Assign { rows, cols } => {
            let (height, width) = (m.min(k), side(rng).min(n));
            *rows = index_list(rng, height as usize, m);
            *cols = index_list(rng, width as usize, n);
            Shapes { a: turned((height, width), first), b: (1, 1), c: (m, n) }
        }
        Operation::Kronecker { .. } => {
            let (height, width) = (block_side(rng, m), block_side(rng, n));
            let c = ((m * height).min(MAX_SIDE), (n * width).min(MAX_SIDE));
            Shapes { a: turned((m, n), first), b: turned((height, width), second), c }
        }
    }
}

/// A side of B beside a side of A in a Kronecker product, seldom past the limit.
fn block_side(rng: &mut Rng, side: u32) -> u32 {
    match rng.below(20) {
        0 => MAX_SIDE / side + 1,
        1 | 2 => MAX_SIDE / side,
        _ => rng.between(1, (MAX_SIDE / side).min(9)),
    }
}

fn operation_call(rng: &mut Rng) -> LentOperation {
    let mut options = options(rng);
    let mut operation = operation(rng);
    let sides = [side(rng), side(rng), side(rng)];
    let mut call = match rng.below(1000) {
        0 if rng.percent(25) => outer_product(rng, options),
        1..=12 => at_the_limit(rng, operation, options),
        13..=128 => shared_roles(rng, operation, options, sides[0].min(40)),
        _ => {
            let shapes = fit(rng, &mut operation, &options, sides);
            if rng.percent(6) {
                options.flags |= COMPLEMENT;
            }
            let mut a = grid(rng, shapes.a.0, shapes.a.1);
            let mut b = grid(rng, shapes.b.0, shapes.b.1);
            if matches!(operation, Operation::Mxm { .. } | Operation::Vxm { .. } | Operation::Kronecker { .. }) {
                limit_product(&mut a, &mut b);
            }
            let mask = grid(rng, shapes.c.0, shapes.c.1);
            let c = grid(rng, shapes.c.0, shapes.c.1);
            assemble(rng, operation, options, [a, b, mask], c)
        }
    };
    let spoils = match rng.below(100) {
        0..=54 => 0,
        55..=79 => 1,
        80..=91 => 2,
        _ => rng.between(3, 6),
    };
    for _ in 0..spoils {
        spoil(rng, &mut call);
    }
    call
}

/// Takes entries away until the product has few terms, to save time.
fn limit_product(a: &mut Grid, b: &mut Grid) {
    while a.cells.len() * b.cells.len() > 100_000 {
        let larger = if a.cells.len() > b.cells.len() { &mut *a } else { &mut *b };
        let mut number = 0;
        larger.cells.retain(|_, _| {
            number += 1;
            number % 2 == 0
        });
    }
}

/// A call with its buffers, C's buffer near the size that is needed.
fn assemble(rng: &mut Rng, operation: Operation, options: Options, inputs: [Grid; 3], c: Grid) -> LentOperation {
    let [a, b, mask] = &inputs;
    let sheets = Sheets {
        a,
        b: Some(b).filter(|_| operation.has_second()),
        mask: Some(mask).filter(|_| options.has_mask),
        c: &c,
    };
    let needed = match SOUND.has_other_shapes(&operation, &options, &sheets) {
        true => c.size(),
        false => SOUND.final_c(&operation, &options, &sheets).grid.size(),
    };
    let mut words: Vec<Vec<u32>> = inputs.iter().map(|grid| sheet(rng, grid)).collect();
    if !options.has_mask && rng.percent(60) {
        damage(rng, &mut words[2]);
    }
    let c = c_buffer(rng, &c, needed);
    let work = work(rng);
    LentOperation { operation, options, inputs: words, a: 0, b: 1, mask: 2, c, work }
}

fn c_buffer(rng: &mut Rng, c: &Grid, needed: usize) -> Vec<u32> {
    let mut words = c.words();
    let enough = needed.max(words.len());
    let length = match rng.below(10) {
        0 | 1 => words.len(),
        2 | 3 => (enough - 1).max(words.len()),
        4 | 5 => enough,
        6 => enough + 1,
        7 if rng.once_in(20) => MAX_WORDS + rng.below(3000),
        _ => enough + rng.below(20),
    };
    let spare = length.saturating_sub(words.len());
    words.extend(random_words(rng, spare));
    words
}

/// A T of up to 1,000,000 entries.
fn outer_product(rng: &mut Rng, mut options: Options) -> LentOperation {
    let k = rng.between(1, 4);
    let m = rng.between(64, MAX_SIDE);
    let mut operation = Operation::Mxm { monoid: rng.pick(&[3, 5, 6, 7]), op: rng.between(0, 7) };
    options.has_mask |= rng.percent(60);
    let shapes = fit(rng, &mut operation, &options, [m, k, MAX_SIDE]);
    let a = grid_of(rng, shapes.a.0, shapes.a.1, MAX_ENTRIES);
    let b = grid_of(rng, shapes.b.0, shapes.b.1, MAX_ENTRIES);
    let mask = grid(rng, shapes.c.0, shapes.c.1);
    let c = grid(rng, shapes.c.0, shapes.c.1);
    assemble(rng, operation, options, [a, b, mask], c)
}

/// A final C of 2,047 to 2,050 entries, as the union of old C and T or of both inputs.
fn at_the_limit(rng: &mut Rng, mut operation: Operation, mut options: Options) -> LentOperation {
    let wanted = entries_near_limit(rng);
    let strip = matches!(operation, Operation::Vxm { .. } | Operation::ReduceRows { .. });
    if strip {
        operation = Operation::EwiseAdd { op: rng.between(0, 7) };
    }
    let sides = [rng.between(46, 70), rng.between(1, 5), rng.between(46, 70)];
    options.has_mask = false;
    options.flags &= !COMPLEMENT;
    let mut shapes = fit(rng, &mut operation, &options, sides);
    while shapes.c.0 == MAX_SIDE || shapes.c.1 == MAX_SIDE {
        shapes = fit(rng, &mut operation, &options, sides);
    }
    let entries = rng.below(30);
    let mut a = grid_of(rng, shapes.a.0, shapes.a.1, entries);
    let mut b = grid_of(rng, shapes.b.0, shapes.b.1, entries);
    let mask = Grid::empty(1, 1);
    let mut c = Grid::empty(shapes.c.0, shapes.c.1);
    if matches!(operation, Operation::EwiseAdd { .. }) && rng.percent(50) {
        options.has_accumulator = false;
        let (left, right) = two_parts(rng, shapes.c, wanted);
        a = left.transposed_if(options.has(TRANSPOSE_FIRST));
        b = right.transposed_if(options.has(TRANSPOSE_SECOND));
    } else {
        options.has_accumulator = true;
        options.accumulator %= 8;
        let second = Some(&b).filter(|_| operation.has_second());
        let t = SOUND.result(&operation, &options, &Sheets { a: &a, b: second, mask: None, c: &c });
        let union = grown(rng, &t, wanted);
        let kept = union.cells.iter().filter(|(at, _)| !t.cells.contains_key(at) || at.1 % 2 == 0);
        c.cells = kept.take(MAX_ENTRIES).map(|(at, value)| (*at, *value)).collect();
    }
    let mut call = assemble(rng, operation, options, [a, b, mask], c);
    if rng.percent(10) {
        call.work.length = WORK_WORDS - 1;
    }
    call
}

/// The grid with more entries until it has as many as wanted.
fn grown(rng: &mut Rng, grid: &Grid, wanted: usize) -> Grid {
    let mut grid = grid.clone();
    while grid.cells.len() < wanted {
        let at = (rng.below(grid.rows as usize) as u32, rng.below(grid.cols as usize) as u32);
        grid.cells.entry(at).or_insert(1);
    }
    grid
}

/// Square sheets, one buffer in several roles.
fn shared_roles(rng: &mut Rng, mut operation: Operation, options: Options, n: u32) -> LentOperation {
    let strip = matches!(operation, Operation::Vxm { .. } | Operation::ReduceRows { .. } | Operation::Kronecker { .. });
    let n = if strip { 1 } else { n };
    for list in operation.lists_mut().into_iter().flatten() {
        *list = index_list(rng, n as usize, n);
    }
    let grids = [grid(rng, n, n), grid(rng, n, n), grid(rng, n, n)];
    let [a, b, mask] = [rng.below(2), rng.below(2), rng.below(3)];
    let c = if rng.percent(20) { grids[a].clone() } else { grid(rng, n, n) };
    let roles = [a, b, mask].map(|role| grids[role].clone());
    let mut call = assemble(rng, operation, options, roles, c);
    call.inputs = grids.iter().map(|grid| sheet(rng, grid)).collect();
    (call.a, call.b, call.mask) = (a, b, mask);
    call
}

/// Makes a call wrong in one respect.
fn spoil(rng: &mut Rng, call: &mut LentOperation) {
    match rng.below(12) {
        0..=4 => spoil_numbers(rng, &mut call.operation, &mut call.options, &mut call.work),
        5 => damage(rng, &mut call.inputs[0]),
        6 => damage(rng, &mut call.inputs[1]),
        7 => {
            call.options.has_mask |= rng.percent(70);
            damage(rng, &mut call.inputs[2]);
        }
        8 => damage(rng, &mut call.c),
        9 => call.c.truncate(call.c.len().saturating_sub(1)),
        10 if matches!(call.operation, Operation::Vxm { .. }) => {
            // A strip as a column, with the flag that would transpose it.
            if let Some(strip) = Grid::read(&call.inputs[call.a], SOUND.fault) {
                call.inputs[call.a] = strip.transposed().words();
                call.options.flags |= TRANSPOSE_FIRST;
            }
        }
        _ => {
            // Another shape for one of the sheets.
            let role = rng.below(4);
            let words = if role == 3 { &mut call.c } else { &mut call.inputs[role] };
            let (rows, cols) = match (words.get(1), words.get(2)) {
                (Some(&rows), Some(&cols)) if rows <= MAX_SIDE && cols <= MAX_SIDE => (rows.max(1), cols.max(1)),
                _ => (1, 1),
            };
            let (rows, cols) = match rng.below(4) {
                0 => (rows, (cols + 1).min(MAX_SIDE)),
                1 => ((rows + 1).min(MAX_SIDE), cols),
                2 => (cols, rows),
                _ => (rows, (cols - 1).max(1)),
            };
            let other = grid(rng, rows, cols);
            *words = sheet(rng, &other);
        }
    }
}
