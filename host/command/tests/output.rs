//! Output that nobody reads, and output that cannot be written.

mod common;

use common::{Folder, OSTRUBEL};
use std::fs::OpenOptions;
use std::process::{Output, Stdio};

/// Runs the command with standard output closed at the other end before it starts.
fn run_closed(folder: &Folder, line: &str) -> Output {
    let (reader, writer) = std::io::pipe().unwrap();
    drop(reader);
    folder.command(OSTRUBEL).args(line.split_whitespace()).stdout(writer).output().unwrap()
}

/// A shelf whose place 0 has 2,048 entries, and a script that prints them twenty times.
fn long_output() -> Folder {
    let folder = Folder::new();
    folder.accept("new s 16384");
    let cells = (0..2_048).map(|k| format!("set 0 {} {} -2147483648\n", k / 4, k % 4));
    folder.script("s", &format!("lay 1 1 1\nset 1 0 0 -2147483648\nlay 0 512 4\n{}", cells.collect::<String>()));
    folder.write("script", format!("set 1 0 0 5\n{}", "show 0\n".repeat(20)));
    folder
}

/// Of a call that only reads, the output is all there is; one that has saved is done.
#[test]
fn a_closed_pipe() {
    let folder = long_output();
    for (line, status) in [
        ("show s 0", 3),
        ("list s", 3),
        ("read s 0 0 0", 3),
        ("help", 3),
        ("--version", 3),
        ("set s 1 0 0 4", 0),
        ("set s 1 0 0 4 --dry-run", 3),
        ("new t 100", 0),
        ("run s script", 0),
    ] {
        let output = run_closed(&folder, line);
        assert_eq!((output.status.code(), output.stderr.as_slice()), (Some(status), &b""[..]), "{line}");
    }
    folder.prints("read s 1 0 0", "5\n");
    assert_eq!(folder.words("t").len(), 400);
}

/// Standard output that is not there at all. To nowhere is somewhere.
#[test]
fn a_closed_output() {
    let folder = long_output();
    let closed = "standard output cannot be written: it is closed\n";
    let read_only = "standard output cannot be written: it is open for reading only\n";
    for (line, status, message) in [
        ("ostrubel list s >&-", 3, format!("ostrubel: {closed}")),
        ("ostrubel set s 1 0 0 4 >&-", 3, format!("ostrubel: the call was carried out, but {closed}")),
        ("ostrubel list s 1< /dev/null", 3, format!("ostrubel: {read_only}")),
        ("ostrubel set s 1 0 0 4 1< s", 3, format!("ostrubel: the call was carried out, but {read_only}")),
        ("ostrubel list s > /dev/null", 0, String::new()),
        ("ostrubel list s 1<> /dev/null", 0, String::new()),
        ("ostrubel show s 7 >&- 2> /dev/null", 1, String::new()),
    ] {
        let output = folder.shell(line);
        assert_eq!(
            (output.status.code(), String::from_utf8(output.stderr).unwrap()),
            (Some(status), message),
            "{line}"
        );
    }
    folder.prints("read s 1 0 0", "4\n");
}

#[test]
fn a_pipe_that_is_closed_midway() {
    let folder = long_output();
    let output = folder.shell("ostrubel run s script | head -n 3");
    assert_eq!(String::from_utf8(output.stdout).unwrap(), "> set 1 0 0 5\nplace 1: 1 entry\n> show 0\n");
    assert_eq!(output.stderr, b"");
    folder.prints("read s 1 0 0", "5\n");
}

#[test]
fn a_refusal_with_everything_closed() {
    let folder = long_output();
    let (reader, writer) = std::io::pipe().unwrap();
    drop(reader);
    for (line, status) in [("show s 7", 1), ("show s", 2), ("show nowhere 0", 3), ("", 2)] {
        let mut command = folder.command(OSTRUBEL);
        let command = command.args(line.split_whitespace()).stdout(Stdio::null()).stderr(writer.try_clone().unwrap());
        assert_eq!(command.status().unwrap().code(), Some(status), "{line}");
    }
}

/// A call that changed the shelf goes through, and the message says so.
#[test]
fn output_that_cannot_be_written() {
    let folder = long_output();
    let full = || OpenOptions::new().write(true).open("/dev/full").unwrap();
    let reason = "standard output cannot be written: No space left on device (os error 28)\n";
    for (line, done) in [
        ("set s 1 0 0 6", "the call was carried out, but "),
        ("drop s 7", ""),
        ("run s script", "the call was carried out, but "),
        ("new t 8", "the call was carried out, but "),
        ("show s 0", ""),
        ("help", ""),
    ] {
        let output = folder.command(OSTRUBEL).args(line.split_whitespace()).stdout(full()).output().unwrap();
        let message = String::from_utf8(output.stderr).unwrap();
        assert_eq!((output.status.code(), message), (Some(3), format!("ostrubel: {done}{reason}")), "{line}");
    }
    folder.prints("read s 1 0 0", "5\n");
}

/// What a script prints is kept in memory, and so has a limit.
#[test]
fn a_script_that_prints_too_much() {
    let folder = long_output();
    let before = folder.state("s");
    let shown = folder.accept("show s 0").len() + "> show 0\n".len();
    let limit = (16 << 20) / shown;
    folder.write("script", format!("set 1 0 0 5\n{}", "show 0\n".repeat(limit + 100)));
    let output = folder.run("run s script");
    let message = String::from_utf8(output.stderr).unwrap();
    let expected = format!("line {}: this script prints too much: more than 16777216 bytes", limit + 2);
    let expected = format!("{expected}\nNothing of this script was saved; the shelf is as it was.\n");
    assert_eq!((output.status.code(), message), (Some(3), expected));
    assert!(output.stdout.starts_with(b"> set 1 0 0 5\n"));
    assert_eq!(folder.state("s"), before);
}
