//! Links the proved library's static archive.
//!
//! Where `OSTRUBEL_LIB_DIR` names a folder by its absolute path, `libostrubel.a` there is linked (or `libexports_c.a`
//! or `libexports.a`, as the toolchain names it or did), and nothing is built. Else `host/library.sh` proves and builds what has changed, which can
//! take minutes: its lines are shown on the terminal, if there is one. An archive for another machine than the target's
//! is refused.

use std::env;
use std::fs::{self, File};
use std::io::{BufRead, BufReader, Write};
use std::path::{Path, PathBuf};
use std::process::{exit, Command, Stdio};

const ARCHIVE: &str = "libostrubel.a";
const BUILT_ARCHIVES: [&str; 2] = ["libexports_c.a", "libexports.a"];

fn main() {
    println!("cargo:rerun-if-env-changed=OSTRUBEL_LIB_DIR");
    println!("cargo:rerun-if-changed=build.rs");
    let target = variable("CARGO_CFG_TARGET_ARCH");
    let archive = match env::var_os("OSTRUBEL_LIB_DIR") {
        Some(folder) if !folder.is_empty() => named_archive(Path::new(&folder)),
        _ => build_archive(&target),
    };
    let bytes = fs::read(&archive).unwrap_or_else(|error| fail(&format!("{}: {error}", archive.display())));
    check_machine(&archive, &bytes, &target);
    // A copy of its own: that archive may be removed or made again.
    let folder = PathBuf::from(variable("OUT_DIR"));
    if let Err(error) = fs::write(folder.join(ARCHIVE), bytes) {
        fail(&format!("{} cannot be copied: {error}", archive.display()));
    }
    println!("cargo:rustc-link-search=native={}", folder.display());
    println!("cargo:rustc-link-lib=static=ostrubel");
}

/// The archive in a folder, which is not made here.
fn named_archive(folder: &Path) -> PathBuf {
    let archive = folder.join(ARCHIVE);
    let built = BUILT_ARCHIVES.map(|name| folder.join(name));
    for file in [&archive].into_iter().chain(&built) {
        println!("cargo:rerun-if-changed={}", file.display());
    }
    if archive.exists() {
        return archive;
    }
    built.into_iter().find(|file| file.exists()).unwrap_or(archive)
}

/// The archive, made again where the crates have changed.
fn build_archive(target: &str) -> PathBuf {
    let root = Path::new(&variable("CARGO_MANIFEST_DIR")).join("../..");
    let script = root.join("host/library.sh");
    if !script.is_file() {
        fail(&format!(
            "OSTRUBEL_LIB_DIR has to name the folder with {ARCHIVE}: host/library.sh is not here to make it"
        ));
    }
    if !variable("HOST").starts_with(target) {
        fail(&format!(
            "host/library.sh makes {ARCHIVE} for {}; OSTRUBEL_LIB_DIR has to name the folder with one for {target}",
            variable("HOST")
        ));
    }
    for input in ["crates.txt", "host/library.sh"].map(|input| root.join(input)).into_iter().chain(sources(&root)) {
        println!("cargo:rerun-if-changed={}", input.display());
    }
    run_shown(Command::new("sh").arg(&script), "host/library.sh");
    root.join("target/staticlib").join(ARCHIVE)
}

/// The folders of the crates whose files are proved. Beside them the toolchain keeps its work.
fn sources(root: &Path) -> Vec<PathBuf> {
    let crates = fs::read_dir(root.join("crates")).into_iter().flatten().flatten();
    let folders = crates.flat_map(|folder| ["src", "specs", "proofs"].map(|part| folder.path().join(part)));
    let mut folders: Vec<PathBuf> = folders.filter(|folder| folder.is_dir()).collect();
    folders.sort();
    folders
}

/// Runs a command, and shows each line that it prints at once: cargo keeps what a build script prints to itself.
fn run_shown(command: &mut Command, name: &str) {
    let mut terminal = File::options().write(true).open("/dev/tty").ok();
    let child = command.stdin(Stdio::null()).stdout(Stdio::piped()).stderr(Stdio::piped()).spawn();
    let mut child = child.unwrap_or_else(|error| fail(&format!("{name} cannot be run: {error}")));
    for line in child.stdout.take().into_iter().flat_map(|output| BufReader::new(output).lines().map_while(Result::ok))
    {
        println!("{line}");
        if let Some(terminal) = &mut terminal {
            // Over the line in which cargo shows its own progress.
            let _ = writeln!(terminal, "\r\x1b[K{line}");
        }
    }
    match child.wait_with_output() {
        Err(error) => fail(&format!("{name} cannot be run: {error}")),
        Ok(output) if !output.status.success() => fail(&String::from_utf8_lossy(&output.stderr)),
        Ok(_) => {}
    }
}

/// Refuses an archive whose first object is for another machine than the target. Of a kind of object that is not known
/// here, the linker judges.
fn check_machine(archive: &Path, bytes: &[u8], target: &str) {
    let Some(object) = first_object(bytes) else {
        fail(&format!("{} is no archive of objects", archive.display()));
    };
    match machine(object) {
        Some(machine) if machine != target => {
            fail(&format!("{} is for {machine}, and the target is {target}", archive.display()));
        }
        _ => {}
    }
}

/// The first member of an archive that is neither a table of symbols nor of names.
fn first_object(archive: &[u8]) -> Option<&[u8]> {
    const HEADER: usize = 60;
    let mut rest = archive.strip_prefix(b"!<arch>\n")?;
    while rest.len() > HEADER {
        let (header, after) = rest.split_at(HEADER);
        let size: usize = std::str::from_utf8(&header[48..58]).ok()?.trim_end().parse().ok()?;
        if !header.starts_with(b"/ ") && !header.starts_with(b"// ") && !header.starts_with(b"/SYM64/ ") {
            return after.get(..size);
        }
        // Members begin at even places.
        rest = after.get(size + size % 2..)?;
    }
    None
}

/// The machine that an object is for, by cargo's name.
fn machine(object: &[u8]) -> Option<&'static str> {
    match object {
        [0, b'a', b's', b'm', ..] => Some("wasm32"),
        [0x7F, b'E', b'L', b'F', ..] => match object.get(18..20)? {
            [62, 0] => Some("x86_64"),
            [183, 0] => Some("aarch64"),
            [40, 0] => Some("arm"),
            _ => None,
        },
        // Mach-O of 64 bits.
        [0xCF, 0xFA, 0xED, 0xFE, kind @ ..] => match kind.get(..4)? {
            [7, 0, 0, 1] => Some("x86_64"),
            [12, 0, 0, 1] => Some("aarch64"),
            _ => None,
        },
        _ => None,
    }
}

/// A variable that cargo sets.
fn variable(name: &str) -> String {
    env::var(name).unwrap_or_else(|_| fail(&format!("{name} is not set: cargo runs this program")))
}

fn fail(message: &str) -> ! {
    eprintln!("{}", message.trim_end());
    exit(1);
}
