//! Documents 01 and 02 on plain grids: T, the write-back, and when a call is refused.

use crate::calls::*;
use crate::fault::Fault;
use crate::grid::{is_shape, Grid, MAX_ENTRIES, MAX_LIST};
use crate::operators::{
    binary, identity, index_unary, is_binary, is_condition, is_index_unary, is_monoid, is_unary, selects, unary,
};
use std::collections::{BTreeMap, BTreeSet};

/// The model, with at most one planted fault.
#[derive(Clone, Copy)]
pub struct Model {
    pub fault: Fault,
}

pub const SOUND: Model = Model { fault: Fault::None };

/// The grids of an operation; `b` and `mask` are there if the call has them.
pub struct Sheets<'a> {
    pub a: &'a Grid,
    pub b: Option<&'a Grid>,
    pub mask: Option<&'a Grid>,
    pub c: &'a Grid,
}

/// The final C of an operation, and the number of entries of T.
pub struct Final {
    pub grid: Grid,
    pub entries_of_t: usize,
}

impl Model {
    pub fn has(&self, fault: Fault) -> bool {
        self.fault == fault
    }

    // T.

    /// The first and second input as transposed.
    fn inputs(&self, operation: &Operation, options: &Options, sheets: &Sheets) -> (Grid, Grid) {
        let first = match operation {
            Operation::Vxm { .. } => {
                let turn = self.has(Fault::StripTransposed) && sheets.a.cols == 1 && options.has(TRANSPOSE_FIRST);
                sheets.a.transposed_if(turn)
            }
            _ => sheets.a.transposed_if(options.has(TRANSPOSE_FIRST)),
        };
        let second = match sheets.b {
            Some(b) => b.transposed_if(options.has(TRANSPOSE_SECOND) && !self.has(Fault::SecondNotTransposed)),
            None => Grid::empty(1, 1),
        };
        (first, second)
    }

    /// T's shape, or none if the inputs' shapes disagree.
    pub fn shape_of_t(&self, operation: &Operation, options: &Options, sheets: &Sheets) -> Option<(u32, u32)> {
        let (first, second) = self.inputs(operation, options, sheets);
        match operation {
            Operation::Mxm { .. } => (first.cols == second.rows).then_some((first.rows, second.cols)),
            Operation::Vxm { .. } => (first.rows == 1 && first.cols == second.rows).then_some((1, second.cols)),
            Operation::EwiseMult { .. } | Operation::EwiseAdd { .. } => {
                (first.shape() == second.shape()).then_some(first.shape())
            }
            Operation::Apply { .. } => Some(first.shape()),
            Operation::Extract { rows, cols } => Some((rows.len() as u32, cols.len() as u32)),
            Operation::Select { .. } => Some(first.shape()),
            // Document 02, A4: "rows into a strip 1 by R".
            Operation::ReduceRows { .. } => match self.fault {
                Fault::ColumnsReduced => Some((1, first.cols)),
                Fault::ColumnOfTotals => Some((first.rows, 1)),
                _ => Some((1, first.rows)),
            },
            // Document 02, A14: "A (as transposed) has the list lengths as its shape, and that need not be C's shape".
            Operation::Assign { rows, cols } => {
                (first.shape() == (rows.len() as u32, cols.len() as u32)).then_some(sheets.c.shape())
            }
            Operation::Kronecker { .. } => Some((first.rows * second.rows, first.cols * second.cols)),
        }
    }

    /// T of an operation whose numbers, lists and shapes are in order.
    pub fn result(&self, operation: &Operation, options: &Options, sheets: &Sheets) -> Grid {
        let fault = self.fault;
        let (first, second) = self.inputs(operation, options, sheets);
        let cells: BTreeMap<(u32, u32), i32> = match operation {
            Operation::Mxm { monoid, op } | Operation::Vxm { monoid, op } => {
                let add = match fault {
                    Fault::MonoidIsOperator if is_monoid(*op, Fault::None) => *op,
                    _ => *monoid,
                };
                self.product(&first, &second, add, *op)
            }
            Operation::EwiseMult { op } => {
                let both = first.cells.iter().filter_map(|(&at, &x)| second.cells.get(&at).map(|&y| (at, x, y)));
                both.map(|(at, x, y)| (at, binary(*op, x, y, fault))).collect()
            }
            Operation::EwiseAdd { op } => {
                let mut cells = self.union(&first.cells, &second.cells, *op);
                if fault == Fault::UnionNegatesLoneRight && *op == 4 {
                    for (at, value) in cells.iter_mut() {
                        if !first.cells.contains_key(at) {
                            *value = value.wrapping_neg();
                        }
                    }
                }
                cells
            }
            Operation::Apply { kind, op, scalar } => {
                // Document 02, A5: an index-unary operator sees the row and column of the input as transposed.
                let turned = options.has(TRANSPOSE_FIRST) && fault == Fault::PositionsAsStored;
                let seen = |(i, j): (u32, u32)| if turned { (j, i) } else { (i, j) };
                let value = |at, x| self.applied(*kind, *op, *scalar as i32, seen(at), x);
                first.cells.iter().map(|(&at, &x)| (at, value(at, x))).collect()
            }
            Operation::Extract { rows, cols } => {
                let (mut rows, mut cols) = (rows, cols);
                if fault == Fault::ExtractListsSwapped && rows.len() == cols.len() && first.rows == first.cols {
                    std::mem::swap(&mut rows, &mut cols);
                }
                extracted(&first, rows, cols)
            }
            Operation::Select { op, scalar } => {
                let turned = options.has(TRANSPOSE_FIRST) && fault == Fault::TriangleAsStored;
                let seen = |(i, j): (u32, u32)| if turned { (j, i) } else { (i, j) };
                let keeps = |at, x| selects(*op, x, seen(at).0, seen(at).1, *scalar as i32, fault);
                first.cells.iter().filter(|(at, x)| keeps(**at, **x)).map(|(&at, &x)| (at, x)).collect()
            }
            Operation::ReduceRows { monoid } => self.row_totals(&first, *monoid),
            Operation::Assign { rows, cols } => {
                first.cells.iter().map(|(&(k, l), &x)| ((rows[k as usize], cols[l as usize]), x)).collect()
            }
            Operation::Kronecker { op } => self.kronecker(&first, &second, *op),
        };
        let (rows, cols) = self.shape_of_t(operation, options, sheets).unwrap_or((1, 1));
        let mut t = Grid { cells, ..Grid::empty(rows, cols) };
        if fault == Fault::ZeroDropped {
            t.cells.retain(|_, value| *value != 0);
        }
        t
    }

    fn product(&self, first: &Grid, second: &Grid, monoid: u32, op: u32) -> BTreeMap<(u32, u32), i32> {
        let mut cells: BTreeMap<(u32, u32), i32> = BTreeMap::new();
        for (&(i, k), &x) in &first.cells {
            for (&(_, j), &y) in second.cells.range((k, 0)..(k + 1, 0)) {
                let term = binary(op, x, y, self.fault);
                cells.entry((i, j)).and_modify(|sum| *sum = binary(monoid, *sum, term, self.fault)).or_insert(term);
            }
        }
        cells
    }

    /// Document 02, A14: "entry (i·p + k, j·q + l) from A(i,j) and a p by q B(k,l)".
    fn kronecker(&self, a: &Grid, b: &Grid, op: u32) -> BTreeMap<(u32, u32), i32> {
        let mut cells = BTreeMap::new();
        for (&(i, j), &x) in &a.cells {
            for (&(k, l), &y) in &b.cells {
                let row = if self.has(Fault::BlockRowsExchanged) { k * a.rows + i } else { i * b.rows + k };
                let value = match self.fault {
                    Fault::KroneckerSwapped => binary(op, y, x, self.fault),
                    _ => binary(op, x, y, self.fault),
                };
                cells.insert((row, j * b.cols + l), value);
            }
        }
        cells
    }

    /// Document 02, A14: "Without an accumulator a listed place takes A's emptiness too; a place not listed keeps old C".
    fn assigned(
        &self,
        options: &Options,
        [rows, cols]: [&Vec<u32>; 2],
        c: &Grid,
        t: &Grid,
    ) -> BTreeMap<(u32, u32), i32> {
        let mut cells = c.cells.clone();
        let listed = |&(i, j): &(u32, u32)| rows.contains(&i) && cols.contains(&j);
        if !options.has_accumulator {
            cells.retain(|at, _| match self.fault {
                Fault::UnlistedEmptied => false,
                Fault::EmptinessIgnored => true,
                Fault::ListedRowsEmptied => !rows.contains(&at.0),
                _ => !listed(at),
            });
        }
        for (&at, &y) in &t.cells {
            let value = match cells.get(&at) {
                Some(&x) if options.has_accumulator && self.has(Fault::AccumulatorSwapped) => {
                    binary(options.accumulator, y, x, self.fault)
                }
                Some(&x) if options.has_accumulator => binary(options.accumulator, x, y, self.fault),
                _ => y,
            };
            cells.insert(at, value);
        }
        cells
    }

    /// Document 02, A4: "holding an entry exactly for the rows with entries".
    fn row_totals(&self, a: &Grid, monoid: u32) -> BTreeMap<(u32, u32), i32> {
        let a = a.transposed_if(self.has(Fault::ColumnsReduced));
        let mut cells = BTreeMap::new();
        for i in 0..a.rows {
            let values: Vec<i32> = a.cells.range((i, 0)..(i + 1, 0)).map(|(_, &value)| value).collect();
            let total = match values.split_first() {
                None if self.has(Fault::EmptyRowIdentity) => identity(monoid, self.fault),
                None => continue,
                Some((&first, rest)) => rest.iter().fold(first, |sum, &x| binary(monoid, sum, x, self.fault)),
            };
            let at = if self.has(Fault::ColumnOfTotals) { (i, 0) } else { (0, i) };
            cells.insert(at, total);
        }
        cells
    }

    /// "a whole sheet into one number, which is the monoid's identity for an empty sheet", or a refusal of 2 or the number
    /// given for a sheet that is not there.
    pub fn total(&self, grid: Option<&Grid>, monoid: u32, missing: u32) -> u64 {
        let refused = |code, known: bool| match known && self.has(Fault::RefusedTotalIdentity) {
            true => counted(code, 0) | number(identity(monoid, self.fault)),
            false => counted(code, 0),
        };
        if !is_monoid(monoid, self.fault) {
            return refused(2, false);
        }
        match grid {
            None => refused(missing, true),
            Some(grid) if grid.cells.is_empty() && self.has(Fault::EmptyTotalRefused) => refused(missing, false),
            Some(grid) => {
                let sum = |sum, &x: &i32| binary(monoid, sum, x, self.fault);
                number(grid.cells.values().fold(identity(monoid, self.fault), sum))
            }
        }
    }

    fn union(
        &self,
        left: &BTreeMap<(u32, u32), i32>,
        right: &BTreeMap<(u32, u32), i32>,
        op: u32,
    ) -> BTreeMap<(u32, u32), i32> {
        let mut cells = left.clone();
        for (&at, &y) in right {
            cells.entry(at).and_modify(|x| *x = binary(op, *x, y, self.fault)).or_insert(y);
        }
        cells
    }

    fn applied(&self, kind: u32, op: u32, scalar: i32, at: (u32, u32), x: i32) -> i32 {
        let fault = self.fault;
        let scalar_first = (kind == 1) != (fault == Fault::ScalarSidesSwapped);
        match kind {
            0 => unary(op, x, fault),
            1 | 2 if scalar_first => binary(op, scalar, x, fault),
            1 | 2 => binary(op, x, scalar, fault),
            _ => index_unary(op, at.0, at.1, scalar, fault),
        }
    }

    // Write-back.

    fn is_inside(&self, options: &Options, sheets: &Sheets, at: (u32, u32)) -> bool {
        let Some(mask) = sheets.mask else {
            return !options.has(COMPLEMENT) || self.has(Fault::ComplementNeedsMask);
        };
        let turn = self.has(Fault::MaskTransposed) && mask.rows == mask.cols && options.has(TRANSPOSE_FIRST);
        let at = if turn { (at.1, at.0) } else { at };
        let structural = options.has(STRUCTURAL) && !self.has(Fault::StructuralIgnored);
        let chosen = match mask.get(at.0, at.1) {
            None => false,
            Some(value) => structural || value != 0 || self.has(Fault::MaskZeroIsTrue),
        };
        chosen != options.has(COMPLEMENT)
    }

    fn write_back(&self, operation: &Operation, options: &Options, sheets: &Sheets, t: &Grid) -> Grid {
        let c = sheets.c;
        let z = match options.has_accumulator {
            _ if matches!(operation, Operation::Assign { .. }) => {
                operation.lists().map(|lists| self.assigned(options, lists, c, t)).unwrap_or_default()
            }
            false => t.cells.clone(),
            true if self.has(Fault::AccumulatorSwapped) => self.union(&t.cells, &c.cells, options.accumulator),
            true => self.union(&c.cells, &t.cells, options.accumulator),
        };
        let replace = options.has(REPLACE)
            && !self.has(Fault::ReplaceIgnored)
            && !(self.has(Fault::ReplaceNeedsMask) && sheets.mask.is_none());
        // Elsewhere neither C nor T has an entry, and so neither has the final C.
        let places: BTreeSet<(u32, u32)> = c.cells.keys().chain(t.cells.keys()).copied().collect();
        let mut result = Grid::empty(c.rows, c.cols);
        for at in places {
            let old = c.cells.get(&at).copied();
            let cell = if self.is_inside(options, sheets, at) {
                match (z.get(&at).copied(), options.has_accumulator) {
                    (None, false) if self.has(Fault::OldKeptInside) => old,
                    (Some(_), true) if self.has(Fault::AccumulatorForgetsOld) && !t.cells.contains_key(&at) => None,
                    (new, _) => new,
                }
            } else if replace {
                None
            } else {
                old
            };
            if let Some(value) = cell {
                result.cells.insert(at, value);
            }
        }
        result
    }

    // Refusals.

    /// Whether refusal 2 applies.
    fn has_unknown_number(&self, operation: &Operation, options: &Options) -> bool {
        let unknown = match *operation {
            Operation::Mxm { monoid, op } | Operation::Vxm { monoid, op } => {
                !is_monoid(monoid, self.fault) || !is_binary(op)
            }
            Operation::EwiseMult { op } | Operation::EwiseAdd { op } | Operation::Kronecker { op } => !is_binary(op),
            Operation::Apply { kind, op, .. } => match kind {
                0 => !is_unary(op),
                1 | 2 => !is_binary(op),
                3 => !is_index_unary(op),
                _ => true,
            },
            Operation::Extract { .. } | Operation::Assign { .. } => false,
            Operation::Select { op, .. } => !is_condition(op),
            Operation::ReduceRows { monoid } => !is_monoid(monoid, self.fault),
        };
        let accumulates = options.has_accumulator || self.has(Fault::AbsentAccumulatorRead);
        unknown || accumulates && !is_binary(options.accumulator)
    }

    /// Refusals 1 and 2, which look at numbers alone.
    pub fn number_refusals(&self, operation: &Operation, options: &Options) -> Vec<u32> {
        let mut refusals = Vec::new();
        if options.flags > 31 + u32::from(self.has(Fault::Flag32Accepted)) {
            refusals.push(1);
        }
        if self.has_unknown_number(operation, options) {
            refusals.push(2);
        }
        refusals
    }

    /// Whether refusal 7 applies to an operation.
    pub fn has_bad_list(&self, operation: &Operation, options: &Options, a: Option<&Grid>, c: Option<&Grid>) -> bool {
        let Some([rows, cols]) = operation.lists() else {
            return false;
        };
        // Document 02, A14: in assign "7 is counted against C and not against A".
        let against_c = matches!(operation, Operation::Assign { .. }) && !self.has(Fault::AssignAgainstA);
        let turn = options.has(TRANSPOSE_FIRST) && !self.has(Fault::IndexAsStored) && !against_c;
        let Some(held) = (if against_c { c } else { a }).map(|grid| grid.transposed_if(turn)) else {
            return false;
        };
        let longest = MAX_LIST - usize::from(self.has(Fault::LongestListRefused));
        let bad = |list: &[u32], side: u32| {
            let past = list.iter().any(|&index| index >= side);
            !(1..=longest).contains(&list.len()) || past || self.has_repeat(list)
        };
        let shared = self.has(Fault::SharedIndexRefused) && rows.iter().any(|index| cols.contains(index));
        bad(rows, held.rows) || bad(cols, held.cols) || shared
    }

    /// Document 02, A9: "Extract now refuses 7 if an index occurs twice in the same list."
    fn has_repeat(&self, list: &[u32]) -> bool {
        match self.fault {
            Fault::RepeatAccepted => false,
            Fault::NeighboursComparedOnly => list.windows(2).any(|pair| pair[0] == pair[1]),
            Fault::FirstComparedOnly => list.iter().skip(1).any(|index| *index == list[0]),
            _ => list.iter().collect::<BTreeSet<_>>().len() < list.len(),
        }
    }

    /// Whether refusal 8 applies to an operation whose sheets are all there.
    pub fn has_other_shapes(&self, operation: &Operation, options: &Options, sheets: &Sheets) -> bool {
        let shape = sheets.c.shape();
        let no_place = sheets.mask.is_none() && options.has(COMPLEMENT);
        if no_place && matches!(operation, Operation::Kronecker { .. }) && self.has(Fault::PastOnlyInside) {
            return false;
        }
        let mask_agrees = sheets.mask.is_none_or(|mask| mask.shape() == shape);
        self.shape_of_t(operation, options, sheets) != Some(shape) || !mask_agrees
    }

    /// Whether refusal 9 applies.
    pub fn has_short_work(&self, work: &Work) -> bool {
        work.length < WORK_WORDS - usize::from(self.has(Fault::WorkOneLess))
    }

    pub fn final_c(&self, operation: &Operation, options: &Options, sheets: &Sheets) -> Final {
        let t = self.result(operation, options, sheets);
        let grid = self.write_back(operation, options, sheets, &t);
        let old = if self.has(Fault::RevisionOfInput) { sheets.a } else { sheets.c };
        let revision = self.next_revision(old.revision, grid.cells != sheets.c.cells);
        Final { grid: Grid { revision, ..grid }, entries_of_t: t.cells.len() }
    }

    /// Document 02, A12: "Each accepted call that writes into a sheet adds one to that sheet's revision, even where no cell
    /// changes, and after 4294967295 the revision wraps to 0."
    pub fn next_revision(&self, revision: u32, changed: bool) -> u32 {
        match self.fault {
            Fault::RevisionTwice => revision.wrapping_add(2),
            Fault::RevisionWhereChanged if !changed => revision,
            Fault::RevisionStops => revision.saturating_add(1),
            _ => revision.wrapping_add(1),
        }
    }

    /// "Laying starts at 0."
    pub fn laid(&self, over: Option<&Grid>, rows: u32, cols: u32) -> Grid {
        let kept = over.filter(|_| self.has(Fault::RevisionKeptByLay));
        Grid { revision: kept.map_or(0, |old| old.revision), ..Grid::empty(rows, cols) }
    }

    /// Whether refusal 10 applies.
    pub fn has_too_many(&self, result: &Final) -> bool {
        let entries = match self.fault {
            Fault::TenOfT => result.grid.cells.len().max(result.entries_of_t),
            _ => result.grid.cells.len(),
        };
        entries > MAX_ENTRIES - usize::from(self.has(Fault::MostEntriesRefused))
    }

    pub fn count(&self, result: &Final) -> usize {
        match self.fault {
            Fault::EntriesOfT => result.entries_of_t,
            _ => result.grid.cells.len(),
        }
    }

    pub fn is_shape(&self, rows: u32, cols: u32) -> bool {
        is_shape(rows, cols, self.fault)
    }

    /// The refusal that is given of those that apply, in the order of the table.
    pub fn first_refusal(&self, applying: &[u32], order: &[u32]) -> Option<u32> {
        let on_store = order.contains(&12);
        // A planted fault puts one number before another.
        let moved = match self.fault {
            Fault::Code2Before1 => Some((2, 1)),
            Fault::Code3Before2 if !on_store => Some((3, 2)),
            Fault::Code4Before3 if !on_store => Some((4, 3)),
            Fault::Code5Before4 if !on_store => Some((5, 4)),
            Fault::Code6Before5 if !on_store => Some((6, 5)),
            Fault::Code7Before6 if !on_store => Some((7, 6)),
            Fault::Code8Before7 => Some((8, 7)),
            Fault::Code9Before8 => Some((9, 8)),
            Fault::Code10Before9 => Some((10, 9)),
            Fault::Code11Before10 => Some((11, 10)),
            Fault::StoreCode1Before12 if on_store => Some((1, 12)),
            Fault::StoreCode2Before12 if on_store && !applying.contains(&1) => Some((2, 12)),
            Fault::StoreCode13Before2 if on_store => Some((13, 2)),
            Fault::StoreCode7Before13 if on_store => Some((7, 13)),
            Fault::StoreCode9Before13 if on_store => Some((9, 13)),
            _ => None,
        };
        let mut order = order.to_vec();
        if let Some((code, other)) = moved {
            order.retain(|&number| number != code);
            let at = order.iter().position(|&number| number == other).unwrap_or(0);
            order.insert(at, code);
        }
        order.into_iter().find(|code| applying.contains(code))
    }

    /// The words of an input or an index list after a call.
    pub fn read_only(&self, name: &str, words: &[u32]) -> Buffer {
        let mut words = words.to_vec();
        let fault = if name.starts_with("list") { Fault::ListWordChanged } else { Fault::InputWordChanged };
        if let (true, Some(word)) = (self.has(fault), words.last_mut()) {
            *word = word.wrapping_add(1);
        }
        Buffer::new(name, words)
    }

    /// The work buffer and the index lists after a call with this answer.
    pub fn side_buffers(&self, operation: &Operation, work: &Work, answer: u64) -> Vec<Buffer> {
        let mut buffers = vec![Buffer::new("work buffer", self.work_after(work, answer))];
        if let Some([rows, cols]) = operation.lists() {
            buffers.push(self.read_only("list I", rows));
            buffers.push(self.read_only("list J", cols));
        }
        buffers
    }

    /// The work buffer after a call with this answer.
    fn work_after(&self, work: &Work, answer: u64) -> Vec<u32> {
        if self.has(Fault::WorkKeptOnRefusal) && code_of(answer) != 0 {
            return work.words();
        }
        let mut after = vec![0; work.length];
        if self.has(Fault::WorkTailKept) && work.length > WORK_WORDS {
            after[WORK_WORDS..].copy_from_slice(&work.words()[WORK_WORDS..]);
        }
        after
    }
}

fn extracted(a: &Grid, rows: &[u32], cols: &[u32]) -> BTreeMap<(u32, u32), i32> {
    let mut cells = BTreeMap::new();
    for (i, &row) in rows.iter().enumerate() {
        if a.cells.range((row, 0)..(row + 1, 0)).next().is_none() {
            continue;
        }
        for (j, &col) in cols.iter().enumerate() {
            if let Some(value) = a.get(row, col) {
                cells.insert((i as u32, j as u32), value);
            }
        }
    }
    cells
}
