//! Sheets as comma-separated values: a line for each row, a field for each column, no value in an empty field. With
//! names there is a line of the columns' heads on top, and the head of its row in front of each line.

use crate::labels::Labels;
use ostrubel::{Error, Matrix, MAX_COLS, MAX_ROWS};
use std::collections::BTreeMap;

/// The text of a sheet. Heads are written where `labels` are given; where they would be read as other rows or columns,
/// there is no text.
pub fn write(matrix: &Matrix, labels: Option<&Labels>) -> Result<String, String> {
    if let Some(labels) = labels {
        check_heads(matrix.rows(), "row", MAX_ROWS, |row| labels.row(row))?;
        check_heads(matrix.cols(), "column", MAX_COLS, |col| labels.col(col))?;
    }
    let mut values: BTreeMap<(u32, u32), i32> = matrix.iter().map(|(row, col, value)| ((row, col), value)).collect();
    let mut text = String::new();
    if let Some(labels) = labels {
        let heads = (0..matrix.cols()).map(|col| field(&labels.col_head(col)));
        push_line(&mut text, std::iter::once(String::new()).chain(heads));
    }
    for row in 0..matrix.rows() {
        let head = labels.map(|labels| field(&labels.row_head(row)));
        let cells =
            (0..matrix.cols()).map(|col| values.remove(&(row, col)).map_or_else(String::new, |v| v.to_string()));
        push_line(&mut text, head.into_iter().chain(cells));
    }
    Ok(text)
}

/// Each head says the row or column that it is written for.
fn check_heads<'a>(count: u32, what: &str, limit: u32, name: impl Fn(u32) -> Option<&'a str>) -> Result<(), String> {
    for number in 0..count {
        let head = name(number).map_or_else(|| number.to_string(), String::from);
        if places([&head].into_iter(), what, limit, &name) != Ok(vec![number]) {
            return Err(format!("{head:?} would stand for more than one {what}"));
        }
    }
    Ok(())
}

/// Whether a text is a table as they are written, with whatever heads or without.
pub fn is_table(text: &str) -> bool {
    let Ok(lines) = split(text.strip_prefix('\u{feff}').unwrap_or(text)) else {
        return false;
    };
    let is_value = |field: &String| field.trim().is_empty() || field.trim().parse::<i32>().is_ok();
    let are_values = |front| lines.iter().skip(front).all(|line| line.iter().skip(front).all(is_value));
    let has_heads = lines.len() > 1 && lines[0].len() > 1 && lines[0][0].is_empty();
    let is_even = lines.iter().all(|line| line.len() == lines[0].len());
    !lines.is_empty() && is_even && (are_values(0) || has_heads && are_values(1))
}

fn push_line(text: &mut String, fields: impl Iterator<Item = String>) {
    text.push_str(&fields.collect::<Vec<_>>().join(","));
    text.push_str("\r\n");
}

fn field(text: &str) -> String {
    if text.contains(['"', ',', '\r', '\n']) || text.starts_with(' ') || text.ends_with(' ') {
        format!("\"{}\"", text.replace('"', "\"\""))
    } else {
        text.to_string()
    }
}

/// The sheet of a text. Where `labels` are given, the first line and the first field of each line are heads, which say
/// the row and the column by name or number; they may come in any order.
pub fn read(text: &str, labels: Option<&Labels>) -> Result<Matrix, String> {
    let mut lines = split(text.strip_prefix('\u{feff}').unwrap_or(text))?;
    let (rows, cols) = match labels {
        Some(labels) => take_heads(&mut lines, labels)?,
        None => (numbers(lines.len()), numbers(lines.first().map_or(0, Vec::len))),
    };
    let mut entries = Vec::new();
    for (at, line) in lines.iter().enumerate() {
        let number = at + 1 + usize::from(labels.is_some());
        if line.len() != cols.len() {
            return Err(format!("line {number} has {} cells, and the first line {}", line.len(), cols.len()));
        }
        for (field, col) in line.iter().zip(&cols).filter(|(field, _)| !field.trim().is_empty()) {
            let value = field.trim().parse::<i32>();
            let value = value.map_err(|_| format!("line {number}: {field:?} is no whole number of 32 bits"))?;
            entries.push((rows[at], *col, value));
        }
    }
    let count = |numbers: &[u32]| numbers.iter().max().map_or(0, |last| last + 1);
    Matrix::from_triples(count(&rows), count(&cols), entries).map_err(|error| match error {
        Error::InvalidShape => limits(),
        _ => error.to_string(),
    })
}

fn limits() -> String {
    format!("a sheet has 1 to {MAX_ROWS} rows and 1 to {MAX_COLS} columns")
}

fn numbers(count: usize) -> Vec<u32> {
    (0..u32::try_from(count).unwrap_or(u32::MAX)).collect()
}

/// Takes the heads away: the rows and columns that they say.
fn take_heads(lines: &mut Vec<Vec<String>>, labels: &Labels) -> Result<(Vec<u32>, Vec<u32>), String> {
    if lines.is_empty() {
        return Err("the line with the columns' heads is missing".to_string());
    }
    let heads = lines.remove(0);
    let cols = places(heads.iter().skip(1), "column", MAX_COLS, |col| labels.col(col))?;
    let mut heads = Vec::new();
    for (at, line) in lines.iter_mut().enumerate() {
        if line.is_empty() {
            return Err(format!("line {} has no head", at + 2));
        }
        heads.push(line.remove(0));
    }
    Ok((places(heads.iter(), "row", MAX_ROWS, |row| labels.row(row))?, cols))
}

/// The numbers that heads stand for. A name comes before a number.
fn places<'a, 'b>(
    heads: impl Iterator<Item = &'a String>,
    what: &str,
    limit: u32,
    name: impl Fn(u32) -> Option<&'b str>,
) -> Result<Vec<u32>, String> {
    let mut places = Vec::new();
    for head in heads.map(|head| head.trim()) {
        let numbered = || head.parse().ok().filter(|number| *number < limit && name(*number).is_none());
        let named = (0..limit).filter(|number| name(*number) == Some(head)).collect::<Vec<_>>();
        let place = match named.as_slice() {
            [] => numbered().ok_or_else(|| format!("no {what} has the name or number {head:?}"))?,
            [place] => *place,
            _ => return Err(format!("several {what}s have the name {head:?}")),
        };
        if places.contains(&place) {
            return Err(format!("the {what} {head:?} stands twice"));
        }
        places.push(place);
    }
    Ok(places)
}

/// The fields of each line, with one for heads. A field may be quoted, and then have commas, line breaks and doubled
/// quotes in it.
fn split(text: &str) -> Result<Vec<Vec<String>>, String> {
    let (mut lines, mut line, mut field) = (Vec::new(), Vec::new(), String::new());
    let (mut is_quoted, mut was_quoted) = (false, false);
    let mut chars = text.chars().peekable();
    while let Some(c) = chars.next() {
        match c {
            '"' if is_quoted && chars.next_if_eq(&'"').is_some() => field.push('"'),
            '"' if is_quoted => (is_quoted, was_quoted) = (false, true),
            _ if is_quoted => field.push(c),
            '"' if field.is_empty() && !was_quoted => is_quoted = true,
            ',' => {
                line.push(std::mem::take(&mut field));
                was_quoted = false;
                if line.len() > MAX_COLS as usize {
                    return Err(limits());
                }
            }
            '\r' if chars.peek() == Some(&'\n') => {}
            '\n' => {
                line.push(std::mem::take(&mut field));
                lines.push(std::mem::take(&mut line));
                was_quoted = false;
                if lines.len() > MAX_ROWS as usize + 1 {
                    return Err(limits());
                }
            }
            _ if was_quoted => return Err(format!("line {}: a quoted field goes on after its end", lines.len() + 1)),
            _ => field.push(c),
        }
    }
    if is_quoted {
        return Err(format!("line {}: a quoted field has no end", lines.len() + 1));
    }
    if !field.is_empty() || !line.is_empty() || was_quoted {
        line.push(field);
        lines.push(line);
    }
    Ok(lines)
}

#[cfg(test)]
mod tests {
    use super::*;

    fn sheet() -> Matrix {
        Matrix::from_triples(3, 2, [(0, 0, -5), (2, 1, 0)]).unwrap()
    }

    fn labels() -> Labels {
        Labels::parse("row 2 hall, \"north\"\ncolumn 0 Anna\ncolumn 1 1").unwrap()
    }

    #[test]
    fn out_and_in_again() {
        assert_eq!(write(&sheet(), None).unwrap(), "-5,\r\n,\r\n,0\r\n");
        assert_eq!(read(&write(&sheet(), None).unwrap(), None), Ok(sheet()));
        let named = ",Anna,1\r\n0,-5,\r\n1,,\r\n\"hall, \"\"north\"\"\",,0\r\n";
        assert_eq!(write(&sheet(), Some(&labels())).unwrap(), named);
        assert_eq!(read(named, Some(&labels())), Ok(sheet()));
        let turned = "\u{feff},1,Anna\n\"hall, \"\"north\"\"\",0,\n1, ,\n0,,-5";
        assert_eq!(read(turned, Some(&labels())), Ok(sheet()));
        assert_eq!(read("\n", None), Matrix::new(1, 1).map_err(|_| String::new()));
    }

    /// Whatever the names are, what is written is read as the same sheet.
    #[test]
    fn heads_that_say_their_row_and_column() {
        let names = ["0", "1", "2", "3", "a", "b", "+1", "01", "\"", ",", " x ", "-5"];
        for one in names {
            for other in names {
                let labels = format!("row 0 {one}\nrow 2 {other}\nrow 3 1\ncolumn 1 {one}\ncolumn 7 {other}");
                let labels = Labels::parse(&labels).unwrap();
                match write(&sheet(), Some(&labels)) {
                    Ok(text) => assert_eq!(read(&text, Some(&labels)), Ok(sheet()), "{text}"),
                    Err(reason) => assert!(reason.contains("would stand for more than one"), "{reason}"),
                }
            }
        }
        let twice = Labels::parse("row 0 a\nrow 1 a").unwrap();
        assert_eq!(write(&sheet(), Some(&twice)).unwrap_err(), "\"a\" would stand for more than one row");
    }

    #[test]
    fn tables() {
        for text in ["1,2\r\n,\r\n", "\n", ",Anna,Bert\r\n0,1,2\r\nhall,,-3\r\n", ",0\n0,\n"] {
            assert!(is_table(text), "{text}");
        }
        for text in ["", "a\n", "a,b\n1,2\n", ",a\n", "1,2\n3\n", ",a\nb,c\n", "\"1", &"\n".repeat(1002)] {
            assert!(!is_table(text), "{text}");
        }
    }

    #[test]
    fn what_is_no_sheet() {
        for (text, reason) in [
            ("", "a sheet has 1 to 1000 rows and 1 to 1000 columns"),
            ("1,2\n3\n", "line 2 has 1 cells, and the first line 2"),
            ("1,x\n", "line 1: \"x\" is no whole number of 32 bits"),
            ("1,2147483648\n", "line 1: \"2147483648\" is no whole number of 32 bits"),
            ("1.5\n", "line 1: \"1.5\" is no whole number of 32 bits"),
            ("1,\"2\n", "line 1: a quoted field has no end"),
            ("\"1\"2\n", "line 1: a quoted field goes on after its end"),
            (&"\n".repeat(1 << 24), "a sheet has 1 to 1000 rows and 1 to 1000 columns"),
            (&",".repeat(1 << 24), "a sheet has 1 to 1000 rows and 1 to 1000 columns"),
        ] {
            assert_eq!(read(text, None).unwrap_err(), reason, "{text}");
        }
        for (text, reason) in [
            (",Anna\nBert,1\n", "no row has the name or number \"Bert\""),
            (",Anna,0\n1,2,3\n", "no column has the name or number \"0\""),
            (",Anna,Anna\n0,1,2\n", "the column \"Anna\" stands twice"),
            (",Anna\n0,1,2\n", "line 2 has 2 cells, and the first line 1"),
            ("", "the line with the columns' heads is missing"),
        ] {
            assert_eq!(read(text, Some(&labels())).unwrap_err(), reason, "{text}");
        }
    }
}
