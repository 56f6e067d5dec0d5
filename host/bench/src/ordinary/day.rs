//! The calls on a day matrix over a base matrix.

use super::answer::{ensure, pack, pack_cell, pack_part, Refusal, Result};
use super::matrix::{size, write_front, Cell, Matrix, Row, MAX_ENTRIES, STARTS_AT};
use super::merge::MaskRow;
use std::ops::Range;

/// The value of a mark that is set.
const MARK: u32 = 1;

/// Row i of the day matrix becomes `row`, and is marked with 1.
pub fn day_rewrite(i: u32, row: &[u32], day: &mut [u32], marks: &mut [u32]) -> u64 {
    pack(rewrite(i, row, day, marks))
}

/// Row i of the day matrix becomes empty, and its mark goes.
pub fn day_back(i: u32, day: &mut [u32], marks: &mut [u32]) -> u64 {
    pack(take_back(i, day, marks))
}

/// The cell at row i and column j as it is shown.
pub fn day_read(i: u32, j: u32, base: &[u32], day: &[u32], marks: &[u32]) -> u64 {
    pack_cell(read(i, j, base, day, marks))
}

/// Both as one new matrix at the front of `out`.
pub fn day_fold(base: &[u32], day: &[u32], marks: &[u32], out: &mut [u32]) -> u64 {
    pack(fold(base, day, marks, out))
}

/// Where row i lies as it is shown: its column numbers where `values` is 0, else its values.
pub fn day_show(i: u32, values: u32, base: &[u32], day: &[u32], marks: &[u32]) -> u64 {
    match Pair::parse(base, day, marks) {
        Ok(pair) if (i as usize) < pair.base.rows() && pair.shapes_agree() => {
            let (in_day, shown) = pair.shown(i);
            let section = if values == 0 { shown.columns_at() } else { shown.values_at() };
            let i = i as usize;
            pack_part(in_day, section + shown.starts[i] as usize, shown.row(i).columns.len())
        }
        _ => pack_part(false, 0, 0),
    }
}

/// A base matrix, a day matrix and the marks.
struct Pair<'a> {
    base: Matrix<'a>,
    day: Matrix<'a>,
    marks: Matrix<'a>,
}

impl<'a> Pair<'a> {
    /// Refused by 3, 4 and 5.
    fn parse(base: &'a [u32], day: &'a [u32], marks: &'a [u32]) -> Result<Self> {
        let base = Matrix::parse(base).ok_or(Refusal::InvalidFirst)?;
        let (day, marks) = parse_day(day, marks)?;
        Ok(Pair { base, day, marks })
    }

    fn shapes_agree(&self) -> bool {
        self.base.shape() == self.day.shape() && self.marks.shape() == (1, self.base.rows())
    }

    /// The matrix that row i is shown from, and whether it is the day matrix.
    fn shown(&self, i: u32) -> (bool, Matrix<'a>) {
        let is_marked = self.marks.cell(0, i).value.is_some();
        (is_marked, if is_marked { self.day } else { self.base })
    }

    /// All rows as they are shown.
    fn rows(&self) -> impl Iterator<Item = Row<'a>> + '_ {
        let mut marks = MaskRow::new(self.marks.row(0), true);
        (0..self.base.rows()).map(move |i| if marks.selects(i as u32) { self.day.row(i) } else { self.base.row(i) })
    }
}

/// Refused by 4 and 5.
fn parse_day<'a>(day: &'a [u32], marks: &'a [u32]) -> Result<(Matrix<'a>, Matrix<'a>)> {
    let day = Matrix::parse(day).ok_or(Refusal::InvalidSecond)?;
    let marks = Matrix::parse(marks).ok_or(Refusal::InvalidMask)?;
    Ok((day, marks))
}

fn rewrite(i: u32, row: &[u32], day: &mut [u32], marks: &mut [u32]) -> Result<usize> {
    let (old, old_marks) = parse_day(day, marks)?;
    let row = Matrix::parse(row).ok_or(Refusal::InvalidOutput)?;
    ensure((i as usize) < old.rows(), Refusal::IndexOutOfBounds)?;
    ensure(old_marks.shape() == (1, old.rows()) && row.shape() == (1, old.cols), Refusal::InvalidShape)?;
    let (span, mark) = (old.span(i as usize), mark_span(&old_marks, i));
    let entries = old.entries() - span.len() + row.entries();
    ensure(entries <= MAX_ENTRIES, Refusal::TooManyEntries)?;
    let mark_entries = old_marks.entries() - mark.len() + 1;
    let fits = size(old.rows(), entries) <= day.len() && size(1, mark_entries) <= marks.len();
    ensure(fits, Refusal::InsufficientSpace)?;
    splice(day, i as usize, span, row.row(0));
    splice(marks, 0, mark, Row { columns: &[i], values: &[MARK] });
    Ok(entries)
}

fn take_back(i: u32, day: &mut [u32], marks: &mut [u32]) -> Result<usize> {
    let (old, old_marks) = parse_day(day, marks)?;
    ensure((i as usize) < old.rows(), Refusal::IndexOutOfBounds)?;
    ensure(old_marks.shape() == (1, old.rows()), Refusal::InvalidShape)?;
    let (span, mark) = (old.span(i as usize), mark_span(&old_marks, i));
    let entries = old.entries() - span.len();
    let nothing = Row { columns: &[], values: &[] };
    splice(day, i as usize, span, nothing);
    splice(marks, 0, mark, nothing);
    Ok(entries)
}

fn read(i: u32, j: u32, base: &[u32], day: &[u32], marks: &[u32]) -> Result<Cell> {
    let pair = Pair::parse(base, day, marks)?;
    let inside = (i as usize) < pair.base.rows() && (j as usize) < pair.base.cols;
    ensure(inside, Refusal::IndexOutOfBounds)?;
    ensure(pair.shapes_agree(), Refusal::InvalidShape)?;
    Ok(pair.shown(i).1.cell(i as usize, j))
}

fn fold(base: &[u32], day: &[u32], marks: &[u32], out: &mut [u32]) -> Result<usize> {
    let pair = Pair::parse(base, day, marks)?;
    ensure(pair.shapes_agree(), Refusal::InvalidShape)?;
    let entries = pair.rows().map(|row| row.columns.len()).sum();
    ensure(entries <= MAX_ENTRIES, Refusal::TooManyEntries)?;
    let (rows, cols) = pair.base.shape();
    ensure(size(rows, entries) <= out.len(), Refusal::InsufficientSpace)?;
    write_front(out, 0, rows as u32, cols as u32);
    let (starts, rest) = out[STARTS_AT..].split_at_mut(rows + 1);
    let (columns, values) = rest.split_at_mut(1 + entries);
    (columns[0], values[0]) = (entries as u32, entries as u32);
    let mut at = 0;
    starts[0] = 0;
    for (row, start) in pair.rows().zip(&mut starts[1..]) {
        let end = at + row.columns.len();
        columns[1 + at..1 + end].copy_from_slice(row.columns);
        values[1 + at..1 + end].copy_from_slice(row.values);
        *start = end as u32;
        at = end;
    }
    Ok(entries)
}

/// The position of row i's mark, or where it would be.
fn mark_span(marks: &Matrix, i: u32) -> Range<usize> {
    let Cell { value, position } = marks.cell(0, i);
    position..position + usize::from(value.is_some())
}

/// The entries of row i at these positions give way to others, for which there is room; the revision is the next.
fn splice(words: &mut [u32], i: usize, span: Range<usize>, new: Row) {
    let rows = words[3] as usize;
    let columns = STARTS_AT + rows + 2;
    let entries = words[columns - 1] as usize;
    let after = entries - span.len() + new.columns.len();
    let (values, new_values) = (columns + entries + 1, columns + after + 1);
    let end = span.start + new.columns.len();
    // The columns behind the span, the values before it and those behind it, each with the place to which it moves.
    let moves = [
        (columns + span.end..columns + entries, columns + end),
        (values..values + span.start, new_values),
        (values + span.end..values + entries, new_values + end),
    ];
    if after > entries {
        moves.into_iter().rev().for_each(|(part, to)| words.copy_within(part, to));
    } else {
        moves.into_iter().for_each(|(part, to)| words.copy_within(part, to));
    }
    words[1] = words[1].wrapping_add(1);
    for start in &mut words[STARTS_AT + i + 1..=STARTS_AT + rows] {
        *start = *start - span.len() as u32 + new.columns.len() as u32;
    }
    (words[columns - 1], words[new_values - 1]) = (after as u32, after as u32);
    words[columns + span.start..columns + end].copy_from_slice(new.columns);
    words[new_values + span.start..new_values + end].copy_from_slice(new.values);
}
