//! The model's calls on lent sheets.

use crate::calls::*;
use crate::fault::Fault;
use crate::grid::Grid;
use crate::model::{Model, Sheets};

const ORDER: [u32; 11] = [1, 2, 3, 4, 5, 6, 7, 8, 9, 10, 11];

impl Model {
    pub fn lent(&self, call: &LentCall) -> Outcome {
        match call {
            LentCall::Check { words } => {
                let answer = match Grid::read(words, self.fault) {
                    Some(grid) => counted(0, grid.cells.len()),
                    None => counted(3, 0),
                };
                one_buffer(answer, words.clone())
            }
            LentCall::NewEmpty { words, rows, cols } => self.lent_new_empty(words, *rows, *cols),
            LentCall::ReadCell { words, i, j } => {
                let answer = match Grid::read(words, self.fault) {
                    None => counted(3, 0),
                    Some(grid) if *i >= grid.rows || *j >= grid.cols => counted(7, 0),
                    Some(grid) => self.read_answer(&grid, *i, *j),
                };
                one_buffer(answer, words.clone())
            }
            LentCall::Reduce { words, monoid } => {
                one_buffer(self.total(Grid::read(words, self.fault).as_ref(), *monoid, 3), words.clone())
            }
            LentCall::RowView { first, second, i, values } => {
                let buffers = [("first", first), ("second", second)].map(|(name, words)| self.read_only(name, words));
                Outcome { answer: self.row_view(first, second, *i, *values != 0), buffers: buffers.into() }
            }
            LentCall::Operation(call) => self.lent_operation(call),
        }
    }

    /// The answer of a read, of a lent sheet and on the store alike.
    pub fn read_answer(&self, grid: &Grid, i: u32, j: u32) -> u64 {
        let position = match self.fault {
            Fault::PositionOfRow => grid.before_row(i),
            Fault::PositionInRow => grid.position(i, j) - grid.before_row(i),
            Fault::PositionOnePast => grid.position(i, j) + usize::from(grid.get(i, j).is_none()),
            Fault::PositionByColumn => grid.before_row(i) + j as usize,
            Fault::PositionOfValue => grid.values_at() + grid.position(i, j),
            _ => grid.position(i, j),
        };
        present_or_absent(grid.get(i, j), position)
    }

    /// The part of row i that is shown: column numbers or values.
    fn row_view(&self, first: &[u32], second: &[u32], i: u32, values: bool) -> u64 {
        let (Some(a), Some(b)) = (Grid::read(first, self.fault), Grid::read(second, self.fault)) else {
            return part_answer(false, 0, 0);
        };
        let shapes_differ = a.shape() != b.shape() && !self.has(Fault::ViewOfOtherShapes);
        if shapes_differ || i >= a.rows {
            return part_answer(false, 0, 0);
        }
        let in_second = a.in_row(i) == 0 && !self.has(Fault::ViewOfFirstOnly);
        let shown = if in_second { &b } else { &a };
        let section = if values != self.has(Fault::ViewOtherSection) { shown.values_at() } else { shown.columns_at() };
        part_answer(in_second, section + shown.before_row(i), shown.in_row(i))
    }

    fn lent_new_empty(&self, words: &[u32], rows: u32, cols: u32) -> Outcome {
        if !self.is_shape(rows, cols) {
            return one_buffer(counted(8, 0), words.to_vec());
        }
        let sheet = self.laid(Grid::read(words, self.fault).as_ref(), rows, cols).words();
        if sheet.len() > words.len() + usize::from(self.has(Fault::RoomOneLess)) {
            return one_buffer(counted(11, 0), words.to_vec());
        }
        let mut after = words.to_vec();
        for (at, word) in sheet.iter().enumerate().take(words.len()) {
            after[at] = *word;
        }
        if self.has(Fault::LayClearsSpare) {
            after.iter_mut().skip(sheet.len()).for_each(|word| *word = 0);
        }
        one_buffer(counted(0, 0), after)
    }

    fn lent_operation(&self, call: &LentOperation) -> Outcome {
        let (answer, c) = self.lent_answer(call);
        let mut buffers = Vec::new();
        for (number, words) in call.inputs.iter().enumerate() {
            buffers.push(self.read_only(&format!("input {number}"), words));
        }
        buffers.push(Buffer::new("C", c));
        buffers.extend(self.side_buffers(&call.operation, &call.work, answer));
        Outcome { answer, buffers }
    }

    /// The answer and the words of C's buffer.
    fn lent_answer(&self, call: &LentOperation) -> (u64, Vec<u32>) {
        let LentOperation { operation, options, inputs, .. } = call;
        let a = Grid::read(&inputs[call.a], self.fault);
        let b = Grid::read(&inputs[call.b], self.fault);
        let mask = Grid::read(&inputs[call.mask], self.fault);
        let c = Grid::read(&call.c, self.fault);

        let mut applying = self.number_refusals(operation, options);
        if a.is_none() {
            applying.push(3);
        }
        if b.is_none() && operation.has_second() {
            applying.push(4);
        }
        if mask.is_none() && (options.has_mask || self.has(Fault::AbsentMaskRead)) {
            applying.push(5);
        }
        if c.is_none() {
            applying.push(6);
        }
        if self.has_bad_list(operation, options, a.as_ref(), c.as_ref()) {
            applying.push(7);
        }
        if self.has_short_work(&call.work) {
            applying.push(9);
        }
        let sheets_are_valid = !applying.iter().any(|code| (3..=6).contains(code));
        if let (Some(a), Some(c), true) = (&a, &c, sheets_are_valid) {
            let sheets = Sheets {
                a,
                b: b.as_ref().filter(|_| operation.has_second()),
                mask: mask.as_ref().filter(|_| options.has_mask),
                c,
            };
            if self.has_other_shapes(operation, options, &sheets) {
                applying.push(8);
            }
            // There is a final C if nothing but the work buffer is wrong.
            if applying.iter().all(|&code| code == 9) {
                let result = self.final_c(operation, options, &sheets);
                if self.has_too_many(&result) {
                    applying.push(10);
                }
                if result.grid.size() + usize::from(self.has(Fault::RoomOneMore)) > call.c.len() {
                    applying.push(11);
                }
                if applying.is_empty() {
                    let words = self.written(&call.c, &result.grid, c.size());
                    return (counted(0, self.count(&result)), words);
                }
            }
        }
        let code = self.first_refusal(&applying, &ORDER).unwrap_or(0);
        let mut after = call.c.clone();
        if let (true, Some(c)) = (self.has(Fault::RevisionOnRefusal), &c) {
            after[1] = c.revision.wrapping_add(1);
        }
        (counted(code, 0), after)
    }

    /// C's buffer with the sheet of the final C at its front.
    fn written(&self, before: &[u32], grid: &Grid, old_size: usize) -> Vec<u32> {
        let sheet = grid.words();
        let mut after = before.to_vec();
        if self.has(Fault::SpareCleared) && sheet.len() < old_size {
            after[sheet.len()..old_size].fill(0);
        }
        // A planted fault may let a sheet pass that is too long.
        let length = sheet.len().min(after.len());
        after[..length].copy_from_slice(&sheet[..length]);
        after
    }
}

fn one_buffer(answer: u64, words: Vec<u32>) -> Outcome {
    Outcome { answer, buffers: vec![Buffer::new("buffer", words)] }
}
