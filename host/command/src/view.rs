//! What `read`, `show`, `list` and `diff` print.

use crate::carry_out::counted;
use crate::changes;
use crate::json::{array, object, string};
use crate::look::Look;
use crate::picture;
use ostrubel::{Error, Found, Matrix, Store, SLOTS};

/// A cell's value, and where asked for the position of its entry.
pub fn cell(found: Found, slot: usize, (row, col): (u32, u32), position: bool, look: &Look) -> String {
    let (value, at) = match found {
        Found::Present { value, position } => (Some(value), position),
        Found::Absent { position } => (None, position),
    };
    if look.json {
        let mut members = vec![("place", slot.to_string()), ("row", row.to_string()), ("column", col.to_string())];
        members.extend(look.labels.row(row).map(|name| ("row_name", string(name))));
        members.extend(look.labels.col(col).map(|name| ("column_name", string(name))));
        members.push(("value", value.map_or_else(|| "null".to_string(), |value| value.to_string())));
        members.extend(position.then(|| ("position", at.to_string())));
        return object(members);
    }
    let text = value.map_or_else(|| "empty".to_string(), |value| value.to_string());
    if position {
        format!("{text} {at}")
    } else {
        text
    }
}

/// A sheet, and where asked for a line with its revision, which JSON has in any case.
pub fn sheet(matrix: &Matrix, slot: usize, with_revision: bool, look: &Look) -> String {
    if !look.json {
        let line = if with_revision { format!("\nrevision {}", matrix.revision()) } else { String::new() };
        return picture::draw(matrix, &[], look) + &line;
    }
    let entry = |(row, col, value): (u32, u32, i32)| {
        object([("row", row.to_string()), ("column", col.to_string()), ("value", value.to_string())])
    };
    let mut members = sheet_members(matrix, slot, look);
    members.push(("entries", array(matrix.iter().map(entry))));
    let names = |count: u32, name: &dyn Fn(u32) -> Option<String>| {
        object((0..count).filter_map(|number| Some((number.to_string(), name(number)?))))
    };
    members.push(("row_names", names(matrix.rows(), &|row| look.labels.row(row).map(string))));
    members.push(("column_names", names(matrix.cols(), &|col| look.labels.col(col).map(string))));
    object(members)
}

/// What a sheet's JSON begins with.
fn sheet_members(matrix: &Matrix, slot: usize, look: &Look) -> Vec<(&'static str, String)> {
    let mut members = vec![("place", slot.to_string())];
    members.extend(look.labels.place(slot).map(|name| ("name", string(name))));
    members.push(("rows", matrix.rows().to_string()));
    members.push(("columns", matrix.cols().to_string()));
    members.push(("revision", matrix.revision().to_string()));
    members
}

/// A line for each slot, and one for the words.
pub fn list(store: &Store, look: &Look) -> Result<String, Error> {
    let (used, all) = (store.used_words(), store.words().len());
    let free = all.saturating_sub(used);
    let sheets = (0..SLOTS).filter(|slot| store.occupied(*slot)).map(|slot| Ok((slot, store.matrix(slot)?)));
    let sheets: Vec<(usize, Matrix)> = sheets.collect::<Result<_, Error>>()?;
    if look.json {
        let place = |(slot, matrix): &(usize, Matrix)| {
            let mut members = sheet_members(matrix, *slot, look);
            members.push(("entries", matrix.entries().to_string()));
            members.push(("words", matrix.words().len().to_string()));
            object(members)
        };
        let words = [("used", used.to_string()), ("free", free.to_string()), ("all", all.to_string())];
        return Ok(object([("places", array(sheets.iter().map(place))), ("words", object(words))]));
    }
    let mut lines: Vec<String> = (0..SLOTS).map(|slot| format!("{}: empty", look.labels.place_head(slot))).collect();
    for (slot, matrix) in &sheets {
        let entries = counted(matrix.entries(), "entry", "entries");
        let (place, words, revision) = (look.labels.place_head(*slot), matrix.words().len(), matrix.revision());
        let shape = format!("{} by {}", matrix.rows(), matrix.cols());
        lines[*slot] = format!("{place}: {shape}, {entries}, {words} words, revision {revision}");
    }
    lines.push(format!("words: {used} used, {free} free, {all} in all"));
    Ok(lines.join("\n"))
}

/// The cells in which the second sheet differs from the first, and its picture where asked for.
pub fn difference(old: &Matrix, new: &Matrix, with_picture: bool, look: &Look) -> String {
    let found = changes::between(Some(old), Some(new));
    let mut text = Vec::new();
    if with_picture {
        text.push(picture::draw(new, &found, look));
    }
    text.extend(changes::lines(&found, look));
    let shape = |matrix: &Matrix| (matrix.rows(), matrix.cols());
    if shape(old) != shape(new) {
        text.push(format!("{} by {} -> {} by {}", old.rows(), old.cols(), new.rows(), new.cols()));
    }
    text.push(match found.len() {
        0 => "no cell differs".to_string(),
        count => format!("{} {}", counted(count, "cell", "cells"), if count == 1 { "differs" } else { "differ" }),
    });
    text.join("\n")
}
