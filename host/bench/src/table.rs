//! The measured times as text: tables in markdown, and their place in a document.

use crate::cases::{Case, Section};
use crate::jobs::STORE_WORDS;
use crate::machine;
use crate::rounds::{Measured, Sides, FLOOR, LIBRARY, ORDINARY, SUITESPARSE};
use crate::scene::Size;
use crate::timing::Summary;
use std::fmt::Write;

const BEGIN: &str = "<!-- measured: begin -->";
const END: &str = "<!-- measured: end -->";

/// What a table shows of a case: its times, and the instructions of the library's call.
struct Row<'a> {
    case: &'a Case,
    sides: &'a Sides,
    instructions: Option<u64>,
}

/// The whole report. Of a case whose instructions were not counted there is "-".
pub fn report(cases: &[Case], measured: &Measured, counts: &[Option<u64>]) -> String {
    let [machine, compilers] = machine::description();
    let mut text = format!("{machine}.\n\n{compilers}.\n\n");
    let Measured { rounds, load, clock_cost, .. } = measured;
    let load = load.map_or(String::new(), |load| format!("The load of the machine when the run began: {load}. "));
    let _ =
        writeln!(text, "{load}{rounds} rounds. A reading of the clock before and after a call: {clock_cost:.0} ns.");
    let row = |((case, sides), &instructions)| Row { case, sides, instructions };
    let rows: Vec<Row> = cases.iter().zip(&measured.sides).zip(counts).map(row).collect();
    for group in rows.chunk_by(|x, y| x.case.section == y.case.section) {
        text.push_str(&table(group[0].case.section, group));
    }
    text
}

fn title(section: Section) -> String {
    let size = |Size { entries, side, .. }: Size| format!("{entries} entries in {side} rows and columns");
    match section {
        Section::Parts => "Validating and clearing alone".to_string(),
        Section::Row => "The cells of a row".to_string(),
        Section::Lent(of) => format!("{}: lent matrices", size(of)),
        Section::Store(of) => format!("{}: a store of {STORE_WORDS} words", size(of)),
        Section::Day(of) => format!("{}: a day matrix over a base matrix", size(of)),
        Section::Files => "Files and texts".to_string(),
        Section::Doors => "Keys behind doors".to_string(),
    }
}

/// A heading and a table. A side that has none of its rows has no columns.
fn table(section: Section, rows: &[Row]) -> String {
    let has_peer = rows.iter().any(|row| row.sides[SUITESPARSE].is_some());
    let has_entries = rows.iter().any(|row| row.case.entries.is_some());
    let mut heads = vec!["Call", "Variant"];
    heads.extend(has_entries.then_some("Entries"));
    heads.extend(["Library, µs", "Ordinary, µs"]);
    heads.extend(has_peer.then_some("SuiteSparse, µs"));
    heads.extend(["Floor, µs", "Library / ordinary"]);
    heads.extend(has_peer.then_some("Library / SuiteSparse"));
    heads.extend(["Library / floor", "Library, instructions"]);
    let mut text = format!("\n### {}\n\n| {} |\n", title(section), heads.join(" | "));
    let _ = writeln!(text, "|---|---|{}", "---:|".repeat(heads.len() - 2));
    for Row { case, sides, instructions } in rows {
        let ratio = |under: usize| ratio(sides[LIBRARY], sides[under]);
        let mut cells = vec![case.call.to_string(), case.variant.clone()];
        cells.extend(has_entries.then(|| case.entries.map_or(String::new(), |entries| entries.to_string())));
        cells.extend([LIBRARY, ORDINARY].map(|side| sides[side].map_or(String::new(), time)));
        cells.extend(has_peer.then(|| sides[SUITESPARSE].map_or(String::new(), time)));
        cells.push(sides[FLOOR].map_or(String::new(), |floor| microseconds(floor.median)));
        cells.push(ratio(ORDINARY));
        cells.extend(has_peer.then(|| ratio(SUITESPARSE)));
        cells.push(ratio(FLOOR));
        cells.push(instructions.map_or("-".to_string(), |count| count.to_string()));
        let _ = writeln!(text, "| {} |", cells.join(" | "));
    }
    text
}

/// The median in microseconds, and in brackets the 10th and 90th percentile.
fn time(Summary { median, low, high }: Summary) -> String {
    format!("{} ({} to {})", microseconds(median), microseconds(low), microseconds(high))
}

/// Three digits.
fn microseconds(nanoseconds: f64) -> String {
    let time = nanoseconds / 1000.0;
    let decimals = match time {
        _ if time < 9.995 => 2,
        _ if time < 99.95 => 1,
        _ => 0,
    };
    let decimals = if time < 0.9995 { 3 } else { decimals };
    format!("{time:.decimals$}")
}

fn ratio(over: Option<Summary>, under: Option<Summary>) -> String {
    match (over, under) {
        (Some(over), Some(under)) => format!("{:.2}", over.median / under.median),
        _ => String::new(),
    }
}

/// The document with the report between its two marks.
pub fn insert(document: &str, report: &str) -> Result<String, String> {
    let missing = |mark| format!("the document has no line {mark}");
    let (front, rest) = document.split_once(BEGIN).ok_or_else(|| missing(BEGIN))?;
    let (_, behind) = rest.split_once(END).ok_or_else(|| missing(END))?;
    Ok(format!("{front}{BEGIN}\n\n{report}\n{END}{behind}"))
}

#[cfg(test)]
mod tests {
    use super::*;

    #[test]
    fn a_report_takes_the_place_of_the_old_one() {
        let document = format!("before\n{BEGIN}\n\nold\n\n{END}\nbehind\n");
        let expected = format!("before\n{BEGIN}\n\nnew\n\n{END}\nbehind\n");
        assert_eq!(insert(&document, "new\n"), Ok(expected.clone()));
        assert_eq!(insert(&expected, "new\n"), Ok(expected));
        assert!(insert("no marks", "new\n").is_err());
    }

    #[test]
    fn times_have_three_digits() {
        let times = [(4.0, "0.004"), (999.9, "1.00"), (1_234.0, "1.23"), (56_789.0, "56.8"), (234_567.0, "235")];
        for (time, expected) in times {
            assert_eq!(microseconds(time), expected);
        }
    }
}
