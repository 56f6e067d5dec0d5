//! A sheet as text: its cells under the columns' names or numbers and beside those of the rows, or a list of its
//! entries where that would be too wide or too long. Changed cells are marked.

use crate::changes::Change;
use crate::look::Look;
use crate::sheet_file::described;
use crate::text::{char_width, width};
use ostrubel::Matrix;
use std::collections::BTreeMap;

/// The most rows of a picture.
const MAX_ROWS: u32 = 60;

/// What is between two columns.
const GAP: usize = 2;

/// Names are shortened to so many columns of the terminal where the whole ones do not fit.
const SHORT_NAME: usize = 12;

/// The picture of a sheet in which these cells have changed.
pub fn draw(matrix: &Matrix, changes: &[Change], look: &Look) -> String {
    let marks: BTreeMap<(u32, u32), &Change> =
        changes.iter().map(|change| ((change.row, change.col), change)).collect();
    let fitting = [usize::MAX, SHORT_NAME].into_iter().filter(|_| matrix.rows() <= MAX_ROWS && could_fit(matrix, look));
    let mut tables = fitting.map(|longest| Table::of(matrix, &marks, longest, look));
    match tables.find(|table| table.width() <= look.width) {
        Some(table) => table.text(look),
        None => list(matrix, look),
    }
}

/// Whether the narrowest picture of so many columns fits.
fn could_fit(matrix: &Matrix, look: &Look) -> bool {
    matrix.cols() as usize * (GAP + 1) < look.width
}

/// The shape and the number of entries, then a line for each entry.
fn list(matrix: &Matrix, look: &Look) -> String {
    let mut lines = vec![described(matrix)];
    lines.extend(matrix.iter().map(|(row, col, value)| {
        if look.labels.name_cells() {
            format!("{}: {value}", look.labels.cell(row, col))
        } else {
            format!("{row} {col} {value}")
        }
    }));
    lines.join("\n")
}

struct Cell {
    text: String,
    is_changed: bool,
}

impl Cell {
    fn width(&self) -> usize {
        width(&self.text)
    }
}

/// The lines of the picture, the first with the columns' heads; in each line the row's head comes first.
struct Table {
    lines: Vec<Vec<Cell>>,
    widths: Vec<usize>,
}

impl Table {
    fn of(matrix: &Matrix, marks: &BTreeMap<(u32, u32), &Change>, longest: usize, look: &Look) -> Table {
        let head = |text: String| Cell { text: shortened(text, longest), is_changed: false };
        let cols = 0..matrix.cols();
        let heads = cols.clone().map(|col| head(look.labels.col_head(col)));
        let mut lines = vec![std::iter::once(head(String::new())).chain(heads).collect::<Vec<_>>()];
        let mut values: BTreeMap<(u32, u32), i32> =
            matrix.iter().map(|(row, col, value)| ((row, col), value)).collect();
        for row in 0..matrix.rows() {
            let cells = cols.clone().map(|col| {
                let is_changed = marks.contains_key(&(row, col));
                let value = values.remove(&(row, col)).map_or_else(|| ".".to_string(), |value| value.to_string());
                let mark = if is_changed && !look.colour { "*" } else { "" };
                Cell { text: format!("{value}{mark}"), is_changed }
            });
            lines.push(std::iter::once(head(look.labels.row_head(row))).chain(cells).collect());
        }
        let widths =
            (0..=matrix.cols() as usize).map(|at| lines.iter().map(|line| line[at].width()).max().unwrap_or(0));
        let widths = widths.collect();
        Table { lines, widths }
    }

    fn width(&self) -> usize {
        self.widths.iter().sum::<usize>() + GAP * (self.widths.len() - 1)
    }

    fn text(&self, look: &Look) -> String {
        let line = |cells: &Vec<Cell>| {
            let padded = cells.iter().zip(&self.widths).map(|(cell, width)| {
                let blanks = " ".repeat(width - cell.width());
                let text = if cell.is_changed { look.new_value(&cell.text) } else { cell.text.clone() };
                format!("{blanks}{text}")
            });
            padded.collect::<Vec<_>>().join(&" ".repeat(GAP))
        };
        self.lines.iter().map(line).collect::<Vec<_>>().join("\n")
    }
}

fn shortened(text: String, longest: usize) -> String {
    if width(&text) <= longest {
        return text;
    }
    let mut columns = 0;
    let fits = |c: &char| {
        columns += char_width(*c);
        columns < longest
    };
    text.chars().take_while(fits).chain(['…']).collect()
}

#[cfg(test)]
mod tests {
    use super::*;
    use crate::changes::between;
    use crate::labels::Labels;
    use crate::look::tests::plain;

    /// Without names and changes a picture is that of the library.
    #[test]
    fn as_the_library_draws() {
        for (rows, cols, entries) in [
            (3, 4, vec![(0, 0, 10), (0, 1, 20), (0, 3, 40), (2, 1, -5), (2, 2, 0)]),
            (1, 1, vec![(0, 0, i32::MIN)]),
            (11, 12, vec![(0, 11, 3), (10, 10, 4)]),
            (60, 2, vec![(59, 0, -7)]),
            (61, 2, vec![(59, 0, -7)]),
            (1, 33, vec![]),
            (1000, 1000, vec![(999, 999, 1)]),
        ] {
            let matrix = Matrix::from_triples(rows, cols, entries).unwrap();
            assert_eq!(draw(&matrix, &[], &plain(120)), matrix.to_string());
        }
    }

    #[test]
    fn names_and_narrow_terminals() {
        let matrix = Matrix::from_triples(3, 2, [(2, 1, 14053)]).unwrap();
        let labels = Labels::parse("row 2 medicine cupboard\ncolumn 1 Anna").unwrap();
        let look = |width| crate::look::Look { labels: labels.clone(), ..plain(width) };
        let whole = "                   0   Anna\n                0  .      .\n                1  .      .\n\
                     medicine cupboard  .  14053";
        assert_eq!(draw(&matrix, &[], &look(27)), whole);
        let short = "              0   Anna\n           0  .      .\n           1  .      .\nmedicine cu…  .  14053";
        assert_eq!(draw(&matrix, &[], &look(26)), short);
        assert_eq!(draw(&matrix, &[], &look(20)), "3 by 2, 1 entry\nmedicine cupboard, Anna: 14053");
    }

    /// Characters of East Asia take two columns each, and are shortened so.
    #[test]
    fn wide_names() {
        let matrix = Matrix::from_triples(2, 2, [(1, 1, 14053)]).unwrap();
        let labels = Labels::parse("row 1 薬箱\ncolumn 0 山田\ncolumn 1 鍵").unwrap();
        let look = crate::look::Look { labels, ..plain(80) };
        let picture = "      山田     鍵\n   0     .      .\n薬箱     .  14053";
        assert_eq!(draw(&matrix, &[], &look), picture);
        assert_eq!(shortened("とても長い名前".to_string(), 12), "とても長い…");
        assert_eq!(shortened("とても長い名".to_string(), 12), "とても長い名");
    }

    #[test]
    fn changed_cells_are_marked() {
        let old = Matrix::from_triples(1, 3, [(0, 0, 1), (0, 1, 2)]).unwrap();
        let new = Matrix::from_triples(1, 3, [(0, 0, 1), (0, 2, 30)]).unwrap();
        let changes = between(Some(&old), Some(&new));
        assert_eq!(draw(&new, &changes, &plain(80)), "   0   1    2\n0  1  .*  30*");
        let look = crate::look::Look { colour: true, ..plain(80) };
        assert_eq!(draw(&new, &changes, &look), "   0  1   2\n0  1  \u{1b}[32m.\u{1b}[0m  \u{1b}[32m30\u{1b}[0m");
    }
}
