//! The instructions of the library's calls, counted by callgrind, a tool of valgrind. The program runs itself under it, to
//! carry each case out once, and callgrind writes a file for each call of `counted_call`.

use crate::cases::Case;
use crate::jobs::Buffers;
use crate::rounds::LIBRARY;
use crate::timing::Subject;
use std::hint::black_box;
use std::path::Path;
use std::process::{Command, Stdio};
use std::{env, fs, process};

/// The argument by which the program only carries the cases out.
pub const COUNTED: &str = "--counted";

const FUNCTION: &str = "counted_call";

/// Blocks are filled and copied by wide instructions: of `rep stosb` and `rep movsb` callgrind counts every byte.
const TUNABLES: &str = "glibc.cpu.x86_rep_stosb_threshold=1000000:glibc.cpu.x86_rep_movsb_threshold=1000000";

/// The instructions of each case's call by the library; none where it has no part in the case, and none at all without
/// valgrind.
pub fn count(cases: &[Case], only: &str) -> Vec<Option<u64>> {
    let folder = env::temp_dir().join(format!("bench-{}", process::id()));
    let totals = fs::create_dir(&folder).ok().and_then(|()| totals(&folder, only)).unwrap_or_default();
    let _ = fs::remove_dir_all(&folder);
    let mut totals = totals.into_iter();
    cases.iter().map(|case| case.subjects[LIBRARY].as_ref().and_then(|_| totals.next())).collect()
}

/// What is counted: a call by the library of each case that it has, after one that is not counted.
pub fn carry_out(cases: &mut [Case]) {
    let mut buffers = Buffers::default();
    for subject in cases.iter_mut().filter_map(|case| case.subjects[LIBRARY].as_mut()) {
        subject.restore(&mut buffers);
        subject.call(&mut buffers);
        subject.restore(&mut buffers);
        counted_call(subject.as_mut(), &mut buffers);
    }
}

/// Callgrind knows it by its name, and sees its end because the call is not the last thing that it does.
#[no_mangle]
#[inline(never)]
fn counted_call(subject: &mut dyn Subject, buffers: &mut Buffers) {
    subject.call(buffers);
    black_box(buffers);
}

/// The counts of the calls in their order.
fn totals(folder: &Path, only: &str) -> Option<Vec<u64>> {
    let file = folder.join("calls");
    let status = Command::new("valgrind")
        .args(["--tool=callgrind", "--collect-atstart=no"])
        .args(["toggle-collect", "dump-after"].map(|option| format!("--{option}={FUNCTION}")))
        .arg(format!("--callgrind-out-file={}", file.display()))
        .arg(env::current_exe().ok()?)
        .args([COUNTED, "--only", only])
        .env("GLIBC_TUNABLES", TUNABLES)
        .stdout(Stdio::null())
        .stderr(Stdio::null())
        .status()
        .ok()?;
    let count = |call: u32| total(&fs::read_to_string(file.with_extension(call.to_string())).ok()?);
    status.success().then(|| (1..).map_while(count).collect())
}

/// The number behind "totals:" in a file of callgrind's.
fn total(text: &str) -> Option<u64> {
    text.lines().find_map(|line| line.strip_prefix("totals:"))?.trim().parse().ok()
}

#[cfg(test)]
mod tests {
    use super::*;

    #[test]
    fn the_total_is_found() {
        assert_eq!(total("# callgrind format\nevents: Ir\nsummary: 9\n\ntotals: 1234\n"), Some(1234));
        assert_eq!(total("events: Ir\n"), None);
    }
}
