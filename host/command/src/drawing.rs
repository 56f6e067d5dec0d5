//! A sheet as a picture file: SVG, or a page of HTML.

use crate::labels::Labels;
use crate::sheet_file::described;
use crate::text::{is_control, width};
use ostrubel::Matrix;
use std::fmt::Write;

/// The width of a character and the height of a line in an SVG picture.
const CHARACTER: usize = 8;
const LINE: usize = 24;

/// A page of HTML has a table of the cells up to so many of them, and else a list of the entries.
const MAX_TABLE: usize = 20_000;

/// What a picture begins with, its maker's name included: only such a file is replaced by another.
pub const SVG_FRONT: &str = "<svg xmlns=\"http://www.w3.org/2000/svg\" data-generator=\"ostrubel\"";
pub const HTML_FRONT: &str =
    "<!doctype html>\n<html lang=\"en\">\n<head>\n<meta name=\"generator\" content=\"ostrubel\">\n";

/// Text for XML and HTML. A control character, which they have no place for, is shown as a replacement character.
fn escaped(text: &str) -> String {
    let mut escaped = String::new();
    for c in text.chars() {
        match c {
            '&' => escaped.push_str("&amp;"),
            '<' => escaped.push_str("&lt;"),
            '>' => escaped.push_str("&gt;"),
            '"' => escaped.push_str("&quot;"),
            c if is_control(c) => escaped.push('\u{fffd}'),
            c => escaped.push(c),
        }
    }
    escaped
}

/// The shape, the entries and the revision.
fn about(matrix: &Matrix) -> String {
    format!("{}, revision {}", described(matrix), matrix.revision())
}

/// The widths of the rows' heads and of each column, in characters.
fn widths(matrix: &Matrix, labels: &Labels) -> (usize, Vec<usize>) {
    let margin = (0..matrix.rows()).map(|row| width(&labels.row_head(row))).max().unwrap_or(0);
    let mut widths: Vec<usize> = (0..matrix.cols()).map(|col| width(&labels.col_head(col))).collect();
    for (_, col, value) in matrix {
        let widest = &mut widths[col as usize];
        *widest = (*widest).max(width(&value.to_string()));
    }
    (margin, widths)
}

/// A grid of lines with the values in it.
pub fn svg(matrix: &Matrix, title: &str, labels: &Labels) -> String {
    let (margin, widths) = widths(matrix, labels);
    // The right edge of the rows' heads and of each column.
    let edges: Vec<usize> = std::iter::once(margin)
        .chain(widths)
        .scan(0, |edge, width| {
            *edge += (width + 2) * CHARACTER;
            Some(*edge)
        })
        .collect();
    let (width, height) = (edges[edges.len() - 1], LINE * (matrix.rows() as usize + 1));
    let (title, about) = (escaped(title), about(matrix));
    let mut text = format!(
        "{SVG_FRONT} width=\"{width}\" height=\"{height}\" viewBox=\"0 0 {width} {height}\" role=\"img\" \
         font-family=\"monospace\" font-size=\"13\" text-anchor=\"end\">\n\
         <title>{title}</title>\n<desc>{about}</desc>\n\
         <rect width=\"{width}\" height=\"{height}\" fill=\"white\" stroke=\"#bbb\"/>\n<g stroke=\"#bbb\">\n"
    );
    for edge in &edges {
        let _ = writeln!(text, "<line x1=\"{edge}\" y1=\"0\" x2=\"{edge}\" y2=\"{height}\"/>");
    }
    for line in 1..=matrix.rows() as usize {
        let y = line * LINE;
        let _ = writeln!(text, "<line x1=\"0\" y1=\"{y}\" x2=\"{width}\" y2=\"{y}\"/>");
    }
    text.push_str("</g>\n");
    let mut put = |edge: usize, line: usize, style: &str, what: &str| {
        let (x, y) = (edge - CHARACTER, line * LINE + 2 * LINE / 3);
        let _ = writeln!(text, "<text x=\"{x}\" y=\"{y}\"{style}>{}</text>", escaped(what));
    };
    for col in 0..matrix.cols() {
        put(edges[col as usize + 1], 0, " font-weight=\"bold\"", &labels.col_head(col));
    }
    for row in 0..matrix.rows() {
        put(edges[0], row as usize + 1, " font-weight=\"bold\"", &labels.row_head(row));
    }
    for (row, col, value) in matrix {
        put(edges[col as usize + 1], row as usize + 1, "", &value.to_string());
    }
    text + "</svg>\n"
}

/// A page with a table.
pub fn html(matrix: &Matrix, title: &str, labels: &Labels) -> String {
    let (title, about) = (escaped(title), about(matrix));
    let table = if matrix.rows() as usize * matrix.cols() as usize <= MAX_TABLE {
        cells(matrix, labels)
    } else {
        entries(matrix, labels)
    };
    format!(
        "{HTML_FRONT}<meta charset=\"utf-8\">\n<meta name=\"viewport\" content=\"width=device-width\">\n\
         <title>{title}</title>\n<style>\nbody {{ font-family: sans-serif; }}\n\
         table {{ border-collapse: collapse; }}\ncaption {{ text-align: left; padding: 0.5em 0; }}\n\
         th, td {{ border: 1px solid #bbb; padding: 0.2em 0.6em; text-align: right; }}\nth {{ background: #eee; }}\n\
         </style>\n</head>\n<body>\n<table>\n<caption>{title}: {about}</caption>\n{table}</table>\n</body>\n</html>\n"
    )
}

fn cells(matrix: &Matrix, labels: &Labels) -> String {
    let mut text = String::from("<tr><td></td>");
    for col in 0..matrix.cols() {
        let _ = write!(text, "<th scope=\"col\">{}</th>", escaped(&labels.col_head(col)));
    }
    text.push_str("</tr>\n");
    let mut entries = matrix.iter().peekable();
    for row in 0..matrix.rows() {
        let _ = write!(text, "<tr><th scope=\"row\">{}</th>", escaped(&labels.row_head(row)));
        for col in 0..matrix.cols() {
            match entries.next_if(|&(i, j, _)| (i, j) == (row, col)) {
                Some((.., value)) => drop(write!(text, "<td>{value}</td>")),
                None => text.push_str("<td></td>"),
            }
        }
        text.push_str("</tr>\n");
    }
    text
}

fn entries(matrix: &Matrix, labels: &Labels) -> String {
    let mut text =
        String::from("<tr><th scope=\"col\">row</th><th scope=\"col\">column</th><th scope=\"col\">value</th></tr>\n");
    for (row, col, value) in matrix {
        let (row, col) = (escaped(&labels.row_head(row)), escaped(&labels.col_head(col)));
        let _ = writeln!(text, "<tr><td>{row}</td><td>{col}</td><td>{value}</td></tr>");
    }
    text
}

#[cfg(test)]
mod tests {
    use super::*;

    #[test]
    fn heads_and_values_are_there() {
        let matrix = Matrix::from_triples(3, 2, [(2, 1, 14053)]).unwrap();
        let labels = Labels::parse("row 2 <medicine> & \"more\"\ncolumn 1 Anna").unwrap();
        let (svg, html) = (svg(&matrix, "a \u{1b} title", &labels), html(&matrix, "a \u{1b} title", &labels));
        for page in [&svg, &html] {
            for text in
                ["&lt;medicine&gt; &amp; &quot;more&quot;", ">Anna<", ">14053<", "a \u{fffd} title", "3 by 2, 1 entry"]
            {
                assert!(page.contains(text), "{text}: {page}");
            }
        }
        assert!(svg.starts_with(SVG_FRONT) && html.starts_with(HTML_FRONT));
        assert_eq!(html.matches("<td>").count(), 1 + 6);
    }

    #[test]
    fn a_large_sheet_is_a_list() {
        let matrix = Matrix::from_triples(1000, 1000, [(999, 0, 5)]).unwrap();
        let page = html(&matrix, "large", &Labels::default());
        assert!(page.contains("<tr><td>999</td><td>0</td><td>5</td></tr>") && page.len() < 2000, "{page}");
        assert!(svg(&matrix, "large", &Labels::default()).len() < 500_000);
    }
}
