//! Document 02, A7: a day sheet over a base sheet, by its sentences one after another, with A11's positions and A12's
//! revisions. The answer and every word of every lent buffer are held against the library's.

use crate::calls::{code_of, counted, part_answer, present_or_absent};
use crate::fault::Fault;
use crate::generate::{damage, entries_near_limit, grid, grid_of, random_words, side};
use crate::grid::{Grid, MAX_ENTRIES};
use crate::rng::Rng;

/// A wrong reading of the rule, planted to see that the comparison notices it.
#[derive(Clone, Copy, Debug, PartialEq, Eq)]
pub enum Slip {
    None,
    EmptyRowFromBase,
    ZeroDoesNotMark,
    MarkKept,
    UnmarkedRowKept,
    PositionInFolded,
    RowPastOther,
    ShapesBeforeRow,
    RoomBeforeEntries,
    MarksNotMeasured,
    RowBeforeMarks,
    AnyShapeOfMarks,
    AnyShapeOfRow,
    SpareWordsLost,
    UnmarkedEntriesFree,
    ShowOtherSection,
    RevisionKept,
    UnmarkedRevisionKept,
    FoldedRevision,
}

#[derive(Clone, Copy, Debug, PartialEq, Eq)]
pub enum Verb {
    Rewrite,
    Back,
    Read { column: u32 },
    Fold,
    Show { values: u32 },
}

/// One call, with all the buffers that any of the five has.
#[derive(Clone, Debug)]
pub struct DayCall {
    pub verb: Verb,
    pub row: u32,
    pub base: Vec<u32>,
    pub day: Vec<u32>,
    pub marks: Vec<u32>,
    pub new: Vec<u32>,
    pub out: Vec<u32>,
}

/// The answer, and the buffers that a call may write.
#[derive(PartialEq, Eq, Debug)]
pub struct After {
    answer: u64,
    day: Vec<u32>,
    marks: Vec<u32>,
    out: Vec<u32>,
}

fn read(words: &[u32], code: u32) -> Result<Grid, u32> {
    Grid::read(words, Fault::None).ok_or(code)
}

fn unless(holds: bool, code: u32) -> Result<(), u32> {
    if holds {
        Ok(())
    } else {
        Err(code)
    }
}

/// "mark the rewritten rows", "whatever their value"
fn marks_row(marks: &Grid, row: u32, slip: Slip) -> bool {
    marks.get(0, row).is_some_and(|value| value != 0 || slip != Slip::ZeroDoesNotMark)
}

/// "A row is shown from the day sheet where the strip marks it, even if it is empty there, and otherwise as a part of the
/// base sheet."
fn in_day(day: &Grid, marks: &Grid, row: u32, slip: Slip) -> bool {
    marks_row(marks, row, slip) && (slip != Slip::EmptyRowFromBase || day.in_row(row) > 0)
}

/// A12: "Each accepted call that writes into a sheet adds one to that sheet's revision"
fn touch(grid: &mut Grid, slip: Slip) {
    grid.revision = grid.revision.wrapping_add(u32::from(slip != Slip::RevisionKept));
}

/// A12: "Sheets made by recipes or folding start at 0"
fn folded(base: &Grid, day: &Grid, marks: &Grid, slip: Slip) -> Grid {
    let mut grid = Grid::empty(base.rows, base.cols);
    grid.revision = if slip == Slip::FoldedRevision { base.revision } else { 0 };
    for row in 0..base.rows {
        let shown = if in_day(day, marks, row, slip) { day } else { base };
        grid.cells.extend(shown.cells.range((row, 0)..(row + 1, 0)));
    }
    grid
}

/// A sheet written over the front of a buffer.
fn over(grid: &Grid, buffer: &[u32], slip: Slip) -> Vec<u32> {
    let mut words = grid.words();
    if slip != Slip::SpareWordsLost {
        words.extend(&buffer[words.len()..]);
    }
    words.resize(buffer.len(), 0);
    words
}

impl DayCall {
    fn strip_of(&self, marks: &Grid, rows: u32, slip: Slip) -> Result<(), u32> {
        unless(marks.shape() == (1, rows) || (slip == Slip::AnyShapeOfMarks && marks.cols == rows), 8)
    }

    /// 3, 4 and 5, then 7 where there is a row, then 8.
    fn pair(&self, row_test: impl Fn(&Grid, &Grid) -> Result<(), u32>, slip: Slip) -> Result<[Grid; 3], u32> {
        let base = read(&self.base, 3)?;
        let day = read(&self.day, 4)?;
        let marks = read(&self.marks, 5)?;
        let shapes = unless(base.shape() == day.shape(), 8).and(self.strip_of(&marks, base.rows, slip));
        if slip == Slip::ShapesBeforeRow {
            shapes?;
        }
        row_test(&base, &day)?;
        shapes?;
        Ok([base, day, marks])
    }

    fn rewrite(&self, slip: Slip) -> Result<(Grid, Grid), u32> {
        let mut day = read(&self.day, 4)?;
        if slip == Slip::RowBeforeMarks {
            read(&self.new, 6)?;
        }
        let mut marks = read(&self.marks, 5)?;
        let new = read(&self.new, 6)?;
        unless(self.row < day.rows, 7)?;
        self.strip_of(&marks, day.rows, slip)?;
        unless(new.shape() == (1, day.cols) || (slip == Slip::AnyShapeOfRow && new.cols == day.cols), 8)?;
        day.cells.retain(|(row, _), _| *row != self.row);
        day.cells.extend(new.cells.range((0, 0)..(1, 0)).map(|((_, column), value)| ((self.row, *column), *value)));
        touch(&mut day, slip);
        touch(&mut marks, slip);
        match slip {
            Slip::MarkKept => {
                marks.cells.entry((0, self.row)).or_insert(1);
            }
            _ => {
                marks.cells.insert((0, self.row), 1);
            }
        }
        let few = unless(day.cells.len() <= MAX_ENTRIES, 10);
        let fits = unless(day.size() <= self.day.len(), 11);
        let marks_fit = unless(marks.size() <= self.marks.len(), 11);
        match slip {
            Slip::RoomBeforeEntries => marks_fit.and(few).and(fits)?,
            Slip::MarksNotMeasured => few.and(fits)?,
            _ => few.and(fits).and(marks_fit)?,
        }
        Ok((day, marks))
    }

    fn back(&self, slip: Slip) -> Result<(Grid, Grid), u32> {
        let mut day = read(&self.day, 4)?;
        let mut marks = read(&self.marks, 5)?;
        unless(self.row < day.rows, 7)?;
        self.strip_of(&marks, day.rows, slip)?;
        if slip != Slip::UnmarkedRowKept || marks.get(0, self.row).is_some() {
            day.cells.retain(|(row, _), _| *row != self.row);
        }
        touch(&mut day, slip);
        if marks.cells.remove(&(0, self.row)).is_some() || slip != Slip::UnmarkedRevisionKept {
            touch(&mut marks, slip);
        }
        Ok((day, marks))
    }

    fn read_cell(&self, column: u32, slip: Slip) -> Result<u64, u32> {
        let row_test = |base: &Grid, day: &Grid| {
            let held = if slip == Slip::RowPastOther { day } else { base };
            unless(self.row < held.rows && column < held.cols, 7)
        };
        let [base, day, marks] = self.pair(row_test, slip)?;
        let folded = folded(&base, &day, &marks, slip);
        let shown = if in_day(&day, &marks, self.row, slip) { &day } else { &base };
        let counted_in = if slip == Slip::PositionInFolded { &folded } else { shown };
        Ok(present_or_absent(folded.get(self.row, column), counted_in.position(self.row, column)))
    }

    fn fold(&self, slip: Slip) -> Result<Grid, u32> {
        let [base, day, marks] = self.pair(|_, _| Ok(()), slip)?;
        let folded = folded(&base, &day, &marks, slip);
        let unmarked = day.cells.keys().filter(|(row, _)| !marks_row(&marks, *row, slip)).count();
        let counted = folded.cells.len() + if slip == Slip::UnmarkedEntriesFree { unmarked } else { 0 };
        unless(counted <= MAX_ENTRIES, 10)?;
        unless(folded.size() <= self.out.len(), 11)?;
        Ok(folded)
    }

    fn show(&self, values: bool, slip: Slip) -> u64 {
        let Ok([base, day, marks]) = self.pair(|base, _| unless(self.row < base.rows, 7), slip) else {
            return part_answer(false, 0, 0);
        };
        let in_day = in_day(&day, &marks, self.row, slip);
        let shown = if in_day { &day } else { &base };
        let values = values != (slip == Slip::ShowOtherSection);
        let section = if values { shown.values_at() } else { shown.columns_at() };
        part_answer(in_day, section + shown.before_row(self.row), shown.in_row(self.row))
    }

    /// The answer and the buffers by the rule.
    pub fn expected(&self, slip: Slip) -> After {
        let same = |answer| After { answer, day: self.day.clone(), marks: self.marks.clone(), out: self.out.clone() };
        let written = |written: Result<(Grid, Grid), u32>| match written {
            Err(code) => same(counted(code, 0)),
            Ok((day, marks)) => After {
                day: over(&day, &self.day, slip),
                marks: if marks.size() <= self.marks.len() { over(&marks, &self.marks, slip) } else { Vec::new() },
                ..same(counted(0, day.cells.len()))
            },
        };
        match self.verb {
            Verb::Rewrite => written(self.rewrite(slip)),
            Verb::Back => written(self.back(slip)),
            Verb::Read { column } => same(self.read_cell(column, slip).unwrap_or_else(|code| counted(code, 0))),
            Verb::Fold => match self.fold(slip) {
                Err(code) => same(counted(code, 0)),
                Ok(grid) => After { out: over(&grid, &self.out, slip), ..same(counted(0, grid.cells.len())) },
            },
            Verb::Show { values } => same(self.show(values != 0, slip)),
        }
    }

    /// The answer and the buffers by the library.
    pub fn seen(&self) -> After {
        use ostrubel::calls;
        let (mut day, mut marks, mut out) = (self.day.clone(), self.marks.clone(), self.out.clone());
        let answer = match self.verb {
            Verb::Rewrite => calls::day_rewrite(self.row, &self.new, &mut day, &mut marks),
            Verb::Back => calls::day_back(self.row, &mut day, &mut marks),
            Verb::Read { column } => calls::day_read(self.row, column, &self.base, &day, &marks),
            Verb::Fold => calls::day_fold(&self.base, &day, &marks, &mut out),
            Verb::Show { values } => calls::day_show(self.row, values, &self.base, &day, &marks),
        };
        After { answer, day, marks, out }
    }

    /// The name of the call and its code; what goes wrong is the error.
    pub fn judge(&self) -> Result<(&'static str, u32), String> {
        let (expected, seen) = (self.expected(Slip::None), self.seen());
        if expected != seen {
            return Err(format!("{self:?}: expected {expected:?}, seen {seen:?}"));
        }
        let name = match self.verb {
            Verb::Rewrite => "rewrite",
            Verb::Back => "back",
            Verb::Read { .. } => "read",
            Verb::Fold => "fold",
            Verb::Show { .. } => return Ok(("show", 0)),
        };
        Ok((name, code_of(seen.answer)))
    }
}

/// A sheet with room for some words more, at times too few for what the call adds.
fn lent(rng: &mut Rng, grid: &Grid, added: usize) -> Vec<u32> {
    let mut words = grid.words();
    let spare = match rng.below(6) {
        0 => rng.below(2 * added + 1),
        1 => 2 * added,
        2 => (2 * added).saturating_sub(1),
        _ => 2 * added + rng.below(9),
    };
    words.extend(random_words(rng, spare));
    words
}

/// The three sheets of one shape, near the largest number of entries at times.
fn pair(rng: &mut Rng) -> [Grid; 3] {
    let (rows, cols) = (side(rng), side(rng));
    let large = rng.once_in(25);
    let (rows, cols) = if large { (rng.between(3, 60), rng.between(50, 90)) } else { (rows, cols) };
    let entries = entries_near_limit(rng).min(MAX_ENTRIES);
    let base = if large && rng.percent(50) { grid_of(rng, rows, cols, entries) } else { grid(rng, rows, cols) };
    let day = if large && rng.percent(70) { grid_of(rng, rows, cols, entries) } else { grid(rng, rows, cols) };
    let marks = grid(rng, 1, rows);
    [base, day, marks].map(|sheet| Grid { revision: rng.pick(&[0, 1, 7, u32::MAX - 1, u32::MAX]), ..sheet })
}

/// A call whose sheets fit, mostly; one in three is spoilt.
pub fn day_call(rng: &mut Rng) -> DayCall {
    let [base, day, marks] = pair(rng);
    let row = rng.below(base.rows as usize) as u32;
    let verb = match rng.below(8) {
        0..=2 => Verb::Rewrite,
        3 => Verb::Back,
        4 => Verb::Read { column: rng.below(base.cols as usize) as u32 },
        5 | 6 => Verb::Fold,
        _ => Verb::Show { values: rng.pick(&[0, 0, 1, 7]) },
    };
    let new = grid(rng, 1, base.cols);
    let size = folded(&base, &day, &marks, Slip::None).size();
    let room = match rng.below(8) {
        0 => size.saturating_sub(1 + rng.below(3)),
        1 => size,
        _ => size + rng.below(9),
    };
    let added = new.cells.len().saturating_sub(day.in_row(row));
    let out = random_words(rng, room);
    let base = lent(rng, &base, 0);
    let day = lent(rng, &day, added);
    let marks = lent(rng, &marks, 1);
    let new = lent(rng, &new, 0);
    let mut call = DayCall { verb, row, base, day, marks, new, out };
    while rng.once_in(3) {
        spoil(rng, &mut call);
    }
    call
}

fn spoil(rng: &mut Rng, call: &mut DayCall) {
    match rng.below(8) {
        0 => damage(rng, &mut call.base),
        1 => damage(rng, &mut call.day),
        2 => damage(rng, &mut call.marks),
        3 => damage(rng, &mut call.new),
        4 => call.row = rng.pick(&[call.row.wrapping_add(1), call.row.wrapping_add(2), 1000, u32::MAX]),
        5 => {
            if let Verb::Read { column } = &mut call.verb {
                *column = rng.pick(&[column.wrapping_add(1), 1000, u32::MAX]);
            }
        }
        6 => {
            let (rows, cols) = (side(rng), side(rng));
            let other = grid(rng, rows, cols).words();
            match rng.below(4) {
                0 => call.base = other,
                1 => call.day = other,
                2 => call.marks = other,
                _ => call.new = other,
            }
        }
        _ => {
            // A strip with a row more.
            let strip = if rng.percent(50) { &mut call.marks } else { &mut call.new };
            if let Some(grid) = Grid::read(strip, Fault::None) {
                *strip = Grid { rows: (grid.rows + 1).min(1000), ..grid }.words();
            }
        }
    }
}

/// A list of rewrites and takings back, after which reading through the pair and folding are a plain grid that was given
/// the same list: the row that was written, or the base sheet's again.
pub fn list(rng: &mut Rng) -> Result<(), String> {
    let (rows, cols) = (rng.between(1, 6), rng.between(1, 6));
    let base = Grid { revision: 0, ..grid(rng, rows, cols) };
    let (mut plain, base_words) = (base.clone(), base.words());
    let mut day = Grid::empty(rows, cols).words();
    let mut marks = Grid::empty(1, rows).words();
    let spare = rng.below(40);
    day.extend(random_words(rng, spare));
    let spare = rng.below(2 * rows as usize + 2);
    marks.extend(random_words(rng, spare));
    for step in 0..rng.below(30) {
        let row = rng.below(rows as usize + 1) as u32;
        let new = grid(rng, 1, cols);
        let rewrites = rng.percent(65);
        let answer = match rewrites {
            true => ostrubel::calls::day_rewrite(row, &new.words(), &mut day, &mut marks),
            false => ostrubel::calls::day_back(row, &mut day, &mut marks),
        };
        if answer as u32 == 0 {
            let given = if rewrites { (&new, 0) } else { (&base, row) };
            plain.cells.retain(|(at, _), _| *at != row);
            let cells = given.0.cells.range((given.1, 0)..(given.1 + 1, 0));
            plain.cells.extend(cells.map(|((_, column), value)| ((row, *column), *value)));
        }
        let mut out = vec![0; plain.size()];
        ostrubel::calls::day_fold(&base_words, &day, &marks, &mut out);
        let cells = (0..rows).flat_map(|i| (0..cols).map(move |j| (i, j)));
        let same_cells = cells.clone().all(|(i, j)| {
            let answer = ostrubel::calls::day_read(i, j, &base_words, &day, &marks);
            answer & !0xffff_0000 == present_or_absent(plain.get(i, j), 0)
        });
        if out != plain.words() || !same_cells {
            return Err(format!("step {step}, row {row}: {plain:?} is not folded from {base:?}, {day:?}, {marks:?}"));
        }
    }
    Ok(())
}

#[cfg(test)]
mod tests {
    use super::*;

    const SLIPS: [Slip; 18] = [
        Slip::EmptyRowFromBase,
        Slip::ZeroDoesNotMark,
        Slip::MarkKept,
        Slip::UnmarkedRowKept,
        Slip::PositionInFolded,
        Slip::RowPastOther,
        Slip::ShapesBeforeRow,
        Slip::RoomBeforeEntries,
        Slip::MarksNotMeasured,
        Slip::RowBeforeMarks,
        Slip::AnyShapeOfMarks,
        Slip::AnyShapeOfRow,
        Slip::SpareWordsLost,
        Slip::UnmarkedEntriesFree,
        Slip::ShowOtherSection,
        Slip::RevisionKept,
        Slip::UnmarkedRevisionKept,
        Slip::FoldedRevision,
    ];

    #[test]
    fn each_slip_is_noticed() {
        for slip in SLIPS {
            let mut calls = (0..100_000).map(|number| day_call(&mut Rng::of_case(1, 7, number)));
            assert!(calls.any(|call| call.expected(slip) != call.seen()), "{slip:?}");
        }
    }
}
