//! The help at every level, completions, the manual page, terminals, and waiting for a lock.

mod common;

use common::{error_text, text, Folder, OSTRUBEL};
use std::fs;
use std::process::Stdio;
use std::time::{Duration, Instant};

#[test]
fn help_at_every_level() {
    let folder = Folder::with_shelf();
    let page = folder.accept("help set");
    for line in ["set --help", "set s --help", "set s 0 0 0 --help 1", "set s --frob --help", "set -h", "set s 0 -h"] {
        folder.prints(line, &page);
    }
    assert!(page.contains("--dry-run") && page.contains("--wait SECONDS") && page.contains("--names NAMES"), "{page}");
    assert!(folder.fails("set s -- --help", 2).contains("is missing"));
    for topic in ["shared", "names", "example"] {
        folder.accept(&format!("help {topic}"));
    }
}

/// Whether a program is there.
fn has(program: &str) -> bool {
    let found = Folder::new().shell(&format!("command -v {program}")).status.success();
    if !found {
        eprintln!("not tested: there is no {program}");
    }
    found
}

#[test]
fn completions_are_scripts() {
    let folder = Folder::with_shelf();
    for shell in ["bash", "zsh", "fish"] {
        folder.write(shell, folder.accept(&format!("completions {shell}")));
        if has(shell) {
            let output = folder.shell(&format!("{shell} -n {shell}"));
            assert_eq!((output.status.code(), error_text(&output)), (Some(0), String::new()), "{shell}");
        }
    }
    assert!(folder.fails("completions csh", 2).contains("no shell \"csh\": there are bash, zsh, fish"));
}

/// What bash offers for the last word of a line.
fn offered(folder: &Folder, words: &[&str]) -> Vec<String> {
    let line = words.iter().map(|word| format!("'{word}'")).collect::<Vec<_>>().join(" ");
    let script = format!(
        "source ./bash; COMP_WORDS=({line}); COMP_CWORD={}; _ostrubel; printf '%s\\n' \"${{COMPREPLY[@]}}\"",
        words.len() - 1
    );
    let output = folder.command("bash").args(["-c", &script]).output().unwrap();
    assert_eq!(error_text(&output), "", "{script}");
    text(&output).lines().filter(|line| !line.is_empty()).map(String::from).collect()
}

#[test]
fn what_bash_completes() {
    let folder = Folder::with_shelf();
    folder.write("bash", folder.accept("completions bash"));
    assert_eq!(offered(&folder, &["ostrubel", "me"]), ["merge"]);
    assert_eq!(offered(&folder, &["ostrubel", "merge", "s", "0", "--m"]), ["--mask"]);
    assert_eq!(offered(&folder, &["ostrubel", "reduce", "s", "0", "--monoid", "m"]), ["min", "max"]);
    assert_eq!(offered(&folder, &["ostrubel", "select", "s", "0", "1", "--op", "tri"]), ["tril", "triu"]);
    assert_eq!(offered(&folder, &["ostrubel", "help", "op"]), ["options", "operators"]);
    assert_eq!(offered(&folder, &["ostrubel", "list", "s"]), ["s"]);
    folder.write("my keys", "");
    assert_eq!(offered(&folder, &["ostrubel", "list", "my"]), ["my keys"]);
    assert_eq!(offered(&folder, &["ostrubel", "show", "s", "0", "--svg", "my"]), ["my keys"]);
    assert_eq!(offered(&folder, &["ostrubel", "vxm", "s", "0", "1", "2", "--tr"]), ["--transpose-b"]);
    assert_eq!(offered(&folder, &["ostrubel", "apply", "s", "0", "1", "--tr"]), ["--transpose-a"]);
}

/// Each word has a description, with its limits filled in, and in each shell's quotes.
#[test]
fn descriptions_in_completions() {
    let folder = Folder::with_shelf();
    let (zsh, fish) = (folder.accept("completions zsh"), folder.accept("completions fish"));
    for script in [&zsh, &fish] {
        assert!(script.contains("a new shelf of WORDS words (8 to 16384; 1000 will often do)"), "{script}");
        assert!(!script.contains("{M"), "{script}");
    }
    assert!(!zsh.contains("[]") && !zsh.contains("\\\\"), "{zsh}");
    assert!(zsh.contains("more about a command; also\\: help options"), "{zsh}");
    assert!(!fish.contains("-d ''\n") && fish.contains(" -l help "), "{fish}");
    for option in
        ["--rows[the chosen rows]", "--op[the operator; these are there\\:]", "--first[OP of N and the value]"]
    {
        assert!(zsh.contains(option), "{option}");
    }
}

#[test]
fn the_manual_page() {
    let folder = Folder::with_shelf();
    let page = folder.accept("man");
    assert!(page.starts_with(".TH OSTRUBEL 1"), "{page}");
    for name in ["merge", "mxm", "eWiseAdd", "convert"] {
        assert!(page.contains(&format!(".SS {name}\n")), "{name}");
    }
    if has("groff") {
        folder.write("ostrubel.1", page);
        let output = folder.shell("groff -man -Tutf8 -ww ostrubel.1 > /dev/null");
        assert_eq!((output.status.code(), error_text(&output)), (Some(0), String::new()));
    }
}

/// Runs a line in a terminal of so many columns. What it shows.
fn in_terminal(folder: &Folder, columns: usize, line: &str) -> String {
    let line = format!("stty cols {columns} rows 24; {}", line.replacen("ostrubel", OSTRUBEL, 1));
    let mut command = folder.command("script");
    command.args(["-qec", &line, "/dev/null"]).env_remove("COLUMNS").env_remove("NO_COLOR").env("TERM", "xterm");
    text(&command.stdin(Stdio::null()).output().unwrap()).replace('\r', "")
}

#[test]
fn colours_and_the_width_of_a_terminal() {
    if !has("script") || !has("stty") {
        return;
    }
    let folder = Folder::with_shelf();
    folder.script("s", "lay 0 1 20\nlay 1 1 2\nset 1 0 1 7\nlay 2 1 2\n");
    assert_eq!(in_terminal(&folder, 90, "ostrubel show s 0").lines().count(), 2);
    assert_eq!(in_terminal(&folder, 40, "ostrubel show s 0"), "1 by 20, 0 entries\n");
    let change = |new: &str| format!("  row 0, column 1: {new}\n1 cell differs\n");
    let coloured = change("\u{1b}[31mempty\u{1b}[0m -> \u{1b}[32m7\u{1b}[0m");
    assert_eq!(in_terminal(&folder, 80, "ostrubel diff s 2 1"), coloured);
    assert_eq!(in_terminal(&folder, 80, "NO_COLOR=1 ostrubel diff s 2 1"), change("empty -> 7"));
    folder.prints("diff s 2 1", &change("empty -> 7"));
    let refused = in_terminal(&folder, 80, "ostrubel export s 1 -");
    assert!(refused.contains("a sheet file is not for a terminal"), "{refused}");
}

/// Another program has the lock for longer than the command waits.
#[test]
fn a_wait_that_ends() {
    let folder = Folder::with_shelf();
    let held = fs::File::open(folder.path("s")).unwrap();
    held.lock().unwrap();
    let message = |seconds| {
        format!("ostrubel: s: another command has it, and {seconds} s of waiting are over; nothing was saved\n")
    };
    assert_eq!(folder.fails("drop s 0 --wait 0", 3), message(0));
    let begin = Instant::now();
    let output = folder.run("drop s 0 --wait 2");
    assert!(begin.elapsed() >= Duration::from_secs(2));
    let waiting = "ostrubel: s: waiting for another command that has it; --wait SECONDS gives up\n";
    assert_eq!((output.status.code(), error_text(&output)), (Some(3), format!("{waiting}{}", message(2))));
    assert!(folder.fails("drop s 0 --wait soon", 2).contains("\"soon\" is no whole number of seconds"));
    drop(held);
    folder.prints("drop s 0 --wait 0", "place 0: empty\n");
}

/// A command that waits says so after a second, and goes on when the lock is free.
#[test]
fn a_wait_that_is_told() {
    let folder = Folder::with_shelf();
    let held = fs::File::open(folder.path("s")).unwrap();
    held.lock().unwrap();
    let mut command = folder.command(OSTRUBEL);
    let command = command.args(["lay", "s", "0", "1", "1"]).stdout(Stdio::piped()).stderr(Stdio::piped());
    let waiting = command.spawn().unwrap();
    std::thread::sleep(Duration::from_millis(1500));
    drop(held);
    let output = waiting.wait_with_output().unwrap();
    assert_eq!((output.status.code(), text(&output)), (Some(0), "place 0: 1 by 1, 0 entries\n".to_string()));
    assert!(error_text(&output).contains("s: waiting for another command"), "{}", error_text(&output));
}

/// What a killed command left goes with the next save, and not with a call that only reads.
#[test]
fn leftovers_go_with_the_next_save() {
    let folder = Folder::with_shelf();
    folder.write(".ostrubel-1-0.new", "left over");
    folder.accept("list s");
    assert_eq!(folder.names(), [".ostrubel-1-0.new", "s"]);
    folder.accept("lay s 0 1 1");
    assert_eq!(folder.names(), ["s"]);
}
