//! Scripts, and the two that tell the story of the lost key.

mod common;

use common::{error_text, text, Folder, OSTRUBEL};
use std::io::Write;
use std::process::Stdio;

/// Runs a script that has to fail: its status, what it prints, and the message. The shelf stays as it was.
fn failing(folder: &Folder, script: &str) -> (i32, String, String) {
    let before = folder.state("s");
    folder.write("script", script);
    let output = folder.run("run s script");
    assert_eq!(folder.state("s"), before, "{script}");
    let message = error_text(&output);
    let message = message.strip_suffix("Nothing of this script was saved; the shelf is as it was.\n");
    (output.status.code().unwrap(), text(&output), message.unwrap().to_string())
}

#[test]
fn comments_calls_and_answers() {
    let folder = Folder::with_shelf();
    let script = "# A story.\n\n   \t\n  # indented\nlay 0 2 2\n\tSET  0 1 1   -7  \r\nread 0 1 1\nread 0 0 0\n\
                  show 0\nclear 0 1 1\ndrop 0\n#end";
    let printed =
        "# A story.\n  # indented\n> lay 0 2 2\nplace 0: 2 by 2, 0 entries\n> SET  0 1 1   -7\nplace 0: 1 entry\n\
                   > read 0 1 1\n-7\n> read 0 0 0\nempty\n> show 0\n   0   1\n0  .   .\n1  .  -7\n> clear 0 1 1\n\
                   place 0: 0 entries\n> drop 0\nplace 0: empty\n#end\n";
    assert_eq!(folder.script("s", script), printed);
    assert_eq!(folder.words("s"), [0; 4000]);
}

#[test]
fn the_operations_in_a_script() {
    let folder = Folder::with_shelf();
    let script = "lay 0 2 2\nset 0 0 0 3\nset 0 0 1 4\nlay 1 2 2\nlay 2 1 2\nset 2 0 0 2\nlay 3 1 2\n\
                  mxm 1 0 0 --semiring plus.times\nvxm 3 2 0 --semiring plus.times\neWiseMult 1 0 1 --op plus\n\
                  ewise-add 1 0 1 --op min\napply 1 1 --op minus --first 10\nextract 3 1 --rows 0 --cols 1,0\nlist\n";
    let printed = folder.script("s", script);
    assert!(printed.contains("> vxm 3 2 0 --semiring plus.times\nplace 3: 2 entries\n"), "{printed}");
    assert!(printed.contains("> list\nplace 0: 2 by 2, 2 entries, "), "{printed}");
    folder.prints("show s 3", "   0  1\n0  6  7\n");
}

/// The same calls one by one and in a script give the same file.
#[test]
fn a_script_does_what_its_calls_do() {
    let (one, other) = (Folder::with_shelf(), Folder::with_shelf());
    let calls = ["lay 0 3 3", "set 0 1 2 9", "set 0 0 0 -1", "lay 5 3 3", "apply 5 0 --op abs", "clear 0 0 0"];
    one.script("s", &calls.join("\n"));
    for call in calls {
        let (name, rest) = call.split_once(' ').unwrap();
        other.accept(&format!("{name} s {rest}"));
    }
    assert_eq!(one.bytes("s"), other.bytes("s"));
}

#[test]
fn a_refusal_on_the_last_line_undoes_all() {
    let folder = Folder::with_shelf();
    folder.script("s", "lay 0 2 2\nset 0 0 0 1\n");
    let (status, printed, message) =
        failing(&folder, "# Two good lines, and one that is not.\nset 0 0 1 2\n\nlay 1 2 2\nset 0 2 0 1\n");
    assert_eq!(status, 1);
    let expected = "# Two good lines, and one that is not.\n> set 0 0 1 2\nplace 0: 2 entries\n> lay 1 2 2\n\
                    place 1: 2 by 2, 0 entries\n> set 0 2 0 1\n";
    assert_eq!(printed, expected);
    assert!(message.starts_with("line 5: refused (7): "), "{message}");
    assert!(message.ends_with(" (row 2, column 0, place 0 is 2 by 2)\n"), "{message}");
    folder.prints("read s 0 0 1", "empty\n");
    folder.prints("read s 0 0 0", "1\n");
}

#[test]
fn a_bad_line_undoes_all() {
    let folder = Folder::with_shelf();
    for (line, hint) in [
        ("frobnicate 1", "no command \"frobnicate\" (see: ostrubel help)"),
        (
            "set 0 0 0",
            "set: VALUE is missing; write: ostrubel set FILE PLACE ROW COL VALUE; \
             in a script leave out \"ostrubel\" and FILE (see: ostrubel help set)",
        ),
        (
            "set s 0 0 0 1",
            "set: \"1\" is one word too many; write: ostrubel set FILE PLACE ROW COL VALUE; \
             in a script leave out \"ostrubel\" and FILE (see: ostrubel help set)",
        ),
        (
            "lay 0 2 2 # small",
            "lay: \"#\" is one word too many; write: ostrubel lay FILE PLACE ROWS COLS; \
             in a script leave out \"ostrubel\" and FILE (see: ostrubel help lay)",
        ),
        (
            "ostrubel set s 0 0 0 1",
            "no command \"ostrubel\"; \
             in a script leave out \"ostrubel\" and FILE (see: ostrubel help run)",
        ),
        ("new t 100", "new is not for scripts (see: ostrubel help run)"),
        ("run script", "run is not for scripts (see: ostrubel help run)"),
        ("help", "help is not for scripts (see: ostrubel help run)"),
        (
            "apply 0 0 --op abs --structural",
            "apply: --structural does nothing without --mask (see: ostrubel help apply)",
        ),
    ] {
        let (status, printed, message) = failing(&folder, &format!("lay 0 2 2\n{line}\nset 0 9 9 9\n"));
        assert_eq!((status, message), (2, format!("line 2: {hint}\n")), "{line}");
        assert_eq!(printed, format!("> lay 0 2 2\nplace 0: 2 by 2, 0 entries\n> {line}\n"));
    }
    assert_eq!(folder.names(), ["s", "script"]);
}

/// Of a refused line and a bad line the one that stands first is told.
#[test]
fn the_first_failure_counts() {
    let folder = Folder::with_shelf();
    let (status, _, message) = failing(&folder, "show 3\nfrobnicate\n");
    assert_eq!((status, message.starts_with("line 1: refused (13): ")), (1, true), "{message}");
}

#[test]
fn a_script_that_only_reads_saves_nothing() {
    let folder = Folder::with_shelf();
    let before = folder.state("s");
    for script in ["", "# nothing\n", "list\n", "lay 0 2 2\ndrop 0\n"] {
        folder.script("s", script);
        assert_eq!(folder.state("s"), before, "{script}");
    }
}

#[test]
fn a_script_from_standard_input() {
    let folder = Folder::with_shelf();
    let mut command = folder.command(OSTRUBEL);
    let mut child = command.args(["run", "s", "-"]).stdin(Stdio::piped()).stdout(Stdio::piped()).spawn().unwrap();
    child.stdin.take().unwrap().write_all(b"lay 0 1 1\nset 0 0 0 5\n").unwrap();
    let output = child.wait_with_output().unwrap();
    assert_eq!(text(&output), "> lay 0 1 1\nplace 0: 1 by 1, 0 entries\n> set 0 0 0 5\nplace 0: 1 entry\n");
    folder.prints("read s 0 0 0", "5\n");
}

/// What the help says to give to run, run takes.
#[test]
fn options_of_a_script() {
    let folder = Folder::with_shelf();
    let page = folder.accept("help run").replace('\n', " ");
    assert!(page.contains("nor --dry-run, --wait and --names: give these three to run."), "{page}");
    folder.write("script", "lay 0 1 1\n");
    folder.write("names", "place 0 today\n");
    for option in ["--dry-run", "--wait 1", "--names names"] {
        folder.accept(&format!("run s script {option}"));
    }
    for option in ["--json", "--svg x", "--html x"] {
        assert!(folder.fails(&format!("run s script {option}"), 2).contains("is no option of run"));
    }
}

#[test]
fn scripts_that_are_too_long_or_no_text() {
    let folder = Folder::with_shelf();
    let longest = format!("lay 0 2 2\n{}", "#".repeat((1 << 20) - 10));
    folder.script("s", &longest);
    let before = folder.state("s");
    folder.write("long", format!("{longest}#"));
    folder.write("bytes", b"lay 1 2 2\n# \xff\n");
    let message = folder.fails("run s long", 2);
    assert_eq!(message, "ostrubel: run: a script has at most 1048576 bytes (see: ostrubel help run)\n");
    assert_eq!(
        folder.fails("run s bytes", 2),
        "ostrubel: run: the script is not text in UTF-8 (see: ostrubel help run)\n"
    );
    let endless = folder.shell("exec ostrubel run s /dev/zero");
    assert_eq!(endless.status.code(), Some(2));
    assert_eq!(folder.state("s"), before);
}

/// The story's folder.
fn story(name: &str) -> String {
    let script = std::fs::read_to_string(format!("{}/../story/{name}.txt", env!("CARGO_MANIFEST_DIR"))).unwrap();
    assert!(script.lines().count() <= 40, "{name}");
    script
}

/// Runs the story as host/story/run.sh does: the phone's sheet is carried in a file to the office. What the ending
/// prints from the last `show` on.
fn ending(name: &str) -> String {
    let folder = Folder::with_shelf();
    folder.accept("new phone 1000");
    folder.script("phone", &story("phone"));
    folder.accept("export phone 0 phone.sheet");
    folder.prints("print phone.sheet", "5 4 3\n0 0 23503\n2 1 8301\n3 0 11202\n");
    let printed = folder.script("s", &story("office"));
    let reports =
        "> show 0\n      0      1      2      3\n0  9101      .      .      .\n1     .      .      .  12402\n\
                   2     .  14053      .      .\n3     .      .      .      .\n4     .      .  10151      .\n";
    assert!(printed.contains(reports), "{printed}");
    folder.prints("import s 1 phone.sheet", "place 1: 5 by 4, 3 entries\n");
    let printed = folder.script("s", &story(name));
    let end = printed.rfind("> show 0\n").unwrap();
    printed[end..].lines().filter(|line| !line.starts_with('#')).map(|line| format!("{line}\n")).collect()
}

#[test]
fn the_lost_key_is_still_lost() {
    let end = "> show 0\n       0      1      2      3\n0   9101      .      .      .\n1      .      .      .  12402\n\
               2      .  14053      .      .\n3  11202      .      .      .\n4      .      .  10151      .\n\
               > read 0 2 1\n14053\n> read 0 3 0\n11202\n> read 0 0 0\n9101\n";
    assert_eq!(ending("merge"), end);
}

#[test]
fn without_the_mask_a_report_is_lost() {
    let end = "> show 0\n       0      1      2      3\n0  23503      .      .      .\n1      .      .      .  12402\n\
               2      .  14053      .      .\n3  11202      .      .      .\n4      .      .  10151      .\n\
               > read 0 0 0\n23503\n";
    assert_eq!(ending("no_mask"), end);
}

#[test]
fn an_overwrite_loses_it() {
    let end = "> show 0\n       0     1  2  3\n0  23503     .  .  .\n1      .     .  .  .\n2      .  8301  .  .\n\
               3  11202     .  .  .\n4      .     .  .  .\n> read 0 2 1\n8301\n> read 0 1 3\nempty\n";
    assert_eq!(ending("overwrite"), end);
}
