//! Sheets of late phones merged into a place: of two values in a cell the larger one stays, which is the later report.
//! The sheets may come in any order.

use crate::call::Call;
use crate::carry_out::counted;
use crate::changes;
use crate::names::Whole;
use crate::refusal::Refusal;
use ostrubel::{ApplyOp, BinaryOp, Error, Matrix, Options, Store, UnaryOp};

/// A sheet, and the name of its file.
pub struct Sheet {
    pub name: String,
    pub matrix: Matrix,
}

/// Merges all sheets or none. With a mask only its cells are written. A line for each sheet, and one for the place.
pub fn merge(store: &mut Store, slot: &Whole, mask: Option<&Whole>, sheets: &[Sheet]) -> Result<String, Refusal> {
    let of_place =
        |error, slot: &Whole, store: &Store| Refusal::of_call(error, &Call::Revision { slot: slot.clone() }, store);
    let taken = |slot: &Whole| store.matrix(slot.size()).map_err(|error| of_place(error, slot, store));
    let mut merged = taken(slot)?;
    let mask_matrix = mask.map(taken).transpose()?;
    let newest = Options::new().accumulate(BinaryOp::Max);
    let options = mask_matrix.as_ref().map_or(newest, |mask| newest.mask(mask));
    let mut lines = Vec::new();
    for sheet in sheets {
        let before = merged.clone();
        let written = merged.apply(ApplyOp::Unary(UnaryOp::Identity), &sheet.matrix, &options);
        written.map_err(|error| refused(error, slot, &before, sheet, mask.zip(mask_matrix.as_ref())))?;
        let count = changes::between(Some(&before), Some(&merged)).len();
        lines.push(format!("{}: {} changed", sheet.name, counted(count, "cell", "cells")));
    }
    store.put(slot.size(), &merged).map_err(|error| of_place(error, slot, store))?;
    lines.push(format!("place {slot}: {}", counted(merged.entries(), "entry", "entries")));
    Ok(lines.join("\n"))
}

fn refused(error: Error, slot: &Whole, place: &Matrix, sheet: &Sheet, mask: Option<(&Whole, &Matrix)>) -> Refusal {
    let shape = |matrix: &Matrix| format!("{} by {}", matrix.rows(), matrix.cols());
    let mut about =
        vec![format!("{} is {}", sheet.name, shape(&sheet.matrix)), format!("place {slot} is {}", shape(place))];
    about.extend(mask.map(|(slot, matrix)| format!("place {slot} (mask) is {}", shape(matrix))));
    let sentence = match error {
        Error::InvalidShape => "The sheet, the place and the mask must have the same shape.".to_string(),
        _ => error.to_string(),
    };
    Refusal::of(error, format!("{sentence} ({})", about.join(", ")))
}
