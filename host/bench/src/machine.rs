//! The machine and the compilers of a run.

use crate::peer;
use std::fs;
use std::thread::available_parallelism;

/// The processor's name, where the system tells it.
fn processor() -> String {
    let info = fs::read_to_string("/proc/cpuinfo").unwrap_or_default();
    let name = info.lines().find(|line| line.starts_with("model name")).and_then(|line| line.split(':').nth(1));
    name.map_or("unknown processor".to_string(), |name| name.trim().to_string())
}

/// The mean number of programs that wanted to run in the last minute, where the system tells it.
pub fn load() -> Option<f64> {
    let text = fs::read_to_string("/proc/loadavg").ok()?;
    text.split_whitespace().next()?.parse().ok()
}

/// One line on the machine, and one on what was compiled by what.
pub fn description() -> [String; 2] {
    let cores = available_parallelism().map_or(1, |count| count.get());
    let suitesparse = match peer::version() {
        Some(version) => format!("SuiteSparse:GraphBLAS {version}, one thread"),
        None => "without SuiteSparse".to_string(),
    };
    [format!("{}, {cores} cores, one used", processor()), format!("{}; {suitesparse}", env!("RUSTC_VERSION"))]
}
