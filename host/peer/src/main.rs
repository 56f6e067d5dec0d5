//! A third opinion: random calls of the program `second` are carried out by the library, and of each accepted operation
//! SuiteSparse:GraphBLAS computes the same C from the same matrices, mask, accumulator, flags and operators. Every
//! entry of C and the number in the answer are compared.
//!
//! `stream` generates calls and `case` has the accepted ones; `plan` says what SuiteSparse is asked to do and where its
//! rules differ, and `suite` does it; `judge` compares, `compare` does so for all calls, with the counts of `counts`;
//! `fault` has wrong rules, and `planted` demands that they are noticed.
//!
//! `run.sh` sees to the package libgraphblas-dev and runs this program.

mod case;
mod compare;
mod counts;
mod fault;
mod judge;
mod plan;
mod planted;
mod stream;
mod suite;

use second::arguments::{self, Arguments};
use std::process::ExitCode;
use suite::Tools;

const USAGE: &str = "\
peer [--seed N] [--calls N] [--faults]

Compares the library's accepted calls with SuiteSparse:GraphBLAS.
  --seed N    the seed of all random choices (1)
  --calls N   calls that are generated, half of them on a store (300000; 30000 with --faults)
  --faults    plants each fault in SuiteSparse's calls and demands that it is noticed";

/// Whether everything agreed, or every fault was noticed.
fn run(arguments: &Arguments) -> Result<ExitCode, String> {
    let faults = arguments.has("--faults");
    let seed = arguments.number("--seed")?.unwrap_or(1);
    let calls = arguments.number("--calls")?.unwrap_or(if faults { 30_000 } else { 300_000 });
    let tools = Tools::new().map_err(|error| format!("SuiteSparse: {error}"))?;
    let passed =
        if faults { planted::plant_all(&tools, seed, calls) } else { compare::compare_all(&tools, seed, calls) };
    Ok(if passed { ExitCode::SUCCESS } else { ExitCode::FAILURE })
}

fn main() -> ExitCode {
    arguments::run(USAGE, run)
}
