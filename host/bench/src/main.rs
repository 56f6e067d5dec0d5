//! Measures all cases and prints the tables.

use bench::cases::{all_cases, Case};
use bench::instructions::{self, COUNTED};
use bench::rounds::measure;
use bench::table::{insert, report};
use second::arguments::{self, Arguments};
use std::fs;
use std::process::ExitCode;
use std::time::Duration;

const USAGE: &str = "\
bench [--seconds N] [--only TEXT] [--write FILE]

Times the library's calls beside an ordinary Rust program and SuiteSparse:GraphBLAS (the feature suitesparse), and counts
their instructions by valgrind, where it is there.
  --seconds N   about how long it takes (120)
  --only TEXT   only the cases whose call and variant have the text in them, as 'mxm, plain'; not with --write
  --write FILE  puts the tables between the two marks in the file
  --counted     only carries the cases out, for valgrind";

/// The document to be written, which has to have its marks before anything is measured.
fn document(file: &str) -> Result<String, String> {
    let text = fs::read_to_string(file).map_err(|error| format!("{file}: {error}"))?;
    insert(&text, "").map_err(|error| format!("{file}: {error}"))?;
    Ok(text)
}

fn run(arguments: &Arguments) -> Result<(), String> {
    let seconds = arguments.number("--seconds")?.unwrap_or(120);
    let only = arguments.text("--only").unwrap_or_default();
    let write = arguments.text("--write");
    if write.is_some() && !only.is_empty() {
        return Err("--write wants all cases, and so no --only".to_string());
    }
    let target = match write {
        Some(file) => Some((document(file)?, file)),
        None => None,
    };
    let mut cases = all_cases()?;
    cases.retain(|Case { call, variant, .. }| format!("{}, {variant}", call.trim_matches('`')).contains(only));
    if cases.is_empty() {
        return Err(format!("no case has \"{only}\" in it"));
    }
    if arguments.has(COUNTED) {
        instructions::carry_out(&mut cases);
        return Ok(());
    }
    eprintln!("The sides agree on {} cases; measuring for about {seconds} s.", cases.len());
    let measured = measure(&mut cases, Duration::from_secs(seconds));
    let counts = instructions::count(&cases, only);
    let report = report(&cases, &measured, &counts);
    print!("{report}");
    if let Some((document, file)) = target {
        fs::write(file, insert(&document, &report)?).map_err(|error| format!("{file}: {error}"))?;
    }
    Ok(())
}

fn main() -> ExitCode {
    arguments::run(USAGE, |arguments| run(arguments).map(|()| ExitCode::SUCCESS))
}
