//! Calls and answers in readable lines.

use crate::calls::*;
use crate::fault::Fault;
use crate::grid::Grid;
use crate::store_grids::StoreGrids;

const SHOWN: usize = 80;

pub fn answer_text(answer: u64, answers: Answers) -> String {
    let (low, high) = (answer as u32, (answer >> 32) as u32);
    let position = low >> 16;
    match (answers, low & 0xFFFF) {
        (Answers::Part, _) => {
            let sheet = if low & 1 == 0 { "first" } else { "second" };
            format!("{} words of the {sheet} sheet from word {high} on", low >> 8)
        }
        (Answers::Cell, 256) => format!("present with {} at position {position}", high as i32),
        (Answers::Cell, 0) if high == 0 => format!("absent at position {position}"),
        (Answers::Number, _) => format!("{low} and {}", high as i32),
        _ => format!("{low} and {high}"),
    }
}

fn list_text(words: &[u32]) -> String {
    let shown: Vec<String> = words.iter().take(SHOWN).map(u32::to_string).collect();
    let more = if words.len() > SHOWN { ", .." } else { "" };
    format!("[{}{more}] ({} words)", shown.join(", "), words.len())
}

fn grid_text(grid: &Grid) -> String {
    let entries: Vec<String> =
        grid.cells.iter().take(SHOWN).map(|((i, j), value)| format!("({i},{j})={value}")).collect();
    let more = if grid.cells.len() > SHOWN { " .." } else { "" };
    format!("{} by {}, {} entries: {}{more}", grid.rows, grid.cols, grid.cells.len(), entries.join(" "))
}

fn sheet_text(words: &[u32]) -> String {
    match Grid::read(words, Fault::None) {
        Some(grid) => format!("{}; {} spare words", grid_text(&grid), words.len() - grid.size()),
        None => format!("no valid sheet: {}", list_text(words)),
    }
}

fn options_text(options: &Options) -> String {
    let names = [
        (REPLACE, "replace"),
        (COMPLEMENT, "complement"),
        (STRUCTURAL, "structural"),
        (TRANSPOSE_FIRST, "transpose first"),
        (TRANSPOSE_SECOND, "transpose second"),
    ];
    let set: Vec<&str> = names.iter().filter(|(flag, _)| options.has(*flag)).map(|(_, name)| *name).collect();
    let mask = if options.has_mask { "a mask" } else { "no mask" };
    let accumulator = match options.has_accumulator {
        true => format!("accumulator {}", binary_name(options.accumulator)),
        false => format!("no accumulator (its number is {})", options.accumulator),
    };
    format!("flags {} ({}), {mask}, {accumulator}", options.flags, set.join(", "))
}

fn binary_name(number: u32) -> String {
    let names = ["FIRST", "SECOND", "ONEB", "PLUS", "MINUS", "TIMES", "MIN", "MAX"];
    match names.get(number as usize) {
        Some(name) => format!("{number} {name}"),
        None => format!("{number}"),
    }
}

fn operation_text(operation: &Operation) -> String {
    let name = operation.name();
    match operation {
        Operation::Mxm { monoid, op } | Operation::Vxm { monoid, op } => {
            format!("{name}, monoid {}, operator {}", binary_name(*monoid), binary_name(*op))
        }
        Operation::EwiseMult { op } | Operation::EwiseAdd { op } | Operation::Kronecker { op } => {
            format!("{name}, operator {}", binary_name(*op))
        }
        Operation::Apply { kind, op, scalar } => {
            let kinds = ["unary", "scalar first", "scalar second", "index-unary"];
            let kind_name = kinds.get(*kind as usize).unwrap_or(&"unknown");
            format!("{name}, kind {kind} ({kind_name}), operator {op}, scalar {}", *scalar as i32)
        }
        Operation::Extract { rows, cols } | Operation::Assign { rows, cols } => {
            format!("{name}, I {}, J {}", list_text(rows), list_text(cols))
        }
        Operation::Select { op, scalar } => format!("{name}, condition {op}, scalar {}", *scalar as i32),
        Operation::ReduceRows { monoid } => format!("{name}, monoid {}", binary_name(*monoid)),
    }
}

pub fn lent_call(call: &LentCall) -> Vec<String> {
    match call {
        LentCall::Check { words } => vec!["check".to_string(), format!("  buffer: {}", sheet_text(words))],
        LentCall::NewEmpty { words, rows, cols } => {
            vec![format!("new_empty, {rows} rows, {cols} columns"), format!("  buffer: {}", list_text(words))]
        }
        LentCall::ReadCell { words, i, j } => {
            vec![format!("read_cell at ({i},{j})"), format!("  buffer: {}", sheet_text(words))]
        }
        LentCall::RowView { first, second, i, values } => vec![
            format!("row_view of row {i}, {}", if *values == 0 { "column numbers" } else { "values" }),
            format!("  first: {}", sheet_text(first)),
            format!("  second: {}", sheet_text(second)),
        ],
        LentCall::Reduce { words, monoid } => {
            vec![format!("reduce, monoid {}", binary_name(*monoid)), format!("  buffer: {}", sheet_text(words))]
        }
        LentCall::Operation(call) => {
            let mut lines = vec![operation_text(&call.operation), format!("  {}", options_text(&call.options))];
            for (number, words) in call.inputs.iter().enumerate() {
                let mut roles = Vec::new();
                if call.a == number {
                    roles.push("first");
                }
                if call.b == number && call.operation.has_second() {
                    roles.push("second");
                }
                if call.mask == number {
                    roles.push(if call.options.has_mask { "mask" } else { "lent as mask" });
                }
                if !roles.is_empty() {
                    lines.push(format!("  input {number} ({}): {}", roles.join(", "), sheet_text(words)));
                }
            }
            lines.push(format!("  C: {}", sheet_text(&call.c)));
            lines.push(format!("  work buffer of {} words", call.work.length));
            lines
        }
    }
}

pub fn store_call(call: &StoreCall) -> String {
    let name = call.name();
    match call {
        StoreCall::NewEmpty { slot, rows, cols } => format!("{name} in place {slot}, {rows} by {cols}"),
        StoreCall::Drop { slot } => format!("{name} place {slot}"),
        StoreCall::SetCell { slot, i, j, value } => {
            format!("{name} in place {slot} at ({i},{j}) to {}", *value as i32)
        }
        StoreCall::ClearCell { slot, i, j } | StoreCall::ReadCell { slot, i, j } => {
            format!("{name} in place {slot} at ({i},{j})")
        }
        StoreCall::Reduce { slot, monoid } => format!("{name} of place {slot}, monoid {}", binary_name(*monoid)),
        StoreCall::Operation(call) => {
            let second = if call.operation.has_second() { format!(", B {}", call.b) } else { String::new() };
            format!(
                "store_{}; {}; places A {}{second}, mask {}, C {}; work buffer of {} words",
                operation_text(&call.operation),
                options_text(&call.options),
                call.a,
                call.mask,
                call.c,
                call.work.length
            )
        }
    }
}

pub fn store_list(list: &StoreList) -> Vec<String> {
    let mut lines = vec![format!("a store of {} words", list.store.len())];
    match StoreGrids::read(&list.store, Fault::None) {
        None => lines.push(format!("  no valid store: {}", list_text(&list.store))),
        Some(grids) => {
            for (slot, grid) in grids.slots.iter().enumerate() {
                if let Some(grid) = grid {
                    lines.push(format!("  place {slot}: {}", grid_text(grid)));
                }
            }
        }
    }
    for (number, call) in list.calls.iter().enumerate() {
        lines.push(format!("  call {number}: {}", store_call(call)));
    }
    lines
}
