//! `merge`, `diff`, `copy` and dry runs.

mod common;

use common::{error_text, Folder, OSTRUBEL};
use std::fs;

/// The office's shelf, and the sheets of three late phones in files.
fn office() -> Folder {
    let folder = Folder::with_shelf();
    folder.script("s", "lay 0 3 2\nset 0 2 1 14053\nset 0 0 0 9101\nlay 2 3 2\nset 2 2 1 1\nset 2 1 0 0\n");
    folder.accept("new phone 1000");
    for (name, cells) in [
        ("a.sheet", "set 0 2 1 8301\nset 0 1 0 11202\n"),
        ("b.sheet", "set 0 2 1 15002\n"),
        ("c.sheet", "set 0 0 0 23503\nset 0 1 0 7\n"),
    ] {
        folder.script("phone", &format!("lay 0 3 2\n{cells}"));
        folder.accept(&format!("export phone 0 {name}"));
    }
    folder
}

#[test]
fn the_largest_stamp_stays_in_any_order() {
    let sheets = ["a.sheet", "b.sheet", "c.sheet"];
    for order in [[0, 1, 2], [0, 2, 1], [1, 0, 2], [1, 2, 0], [2, 0, 1], [2, 1, 0]] {
        let folder = office();
        let files = order.map(|at| sheets[at]).join(" ");
        let printed = folder.accept(&format!("merge s 0 {files} {}", sheets[order[0]]));
        assert_eq!(printed.lines().count(), 5, "{printed}");
        assert!(
            printed.ends_with(&format!("{}: 0 cells changed\nplace 0: 3 entries\n", sheets[order[0]])),
            "{printed}"
        );
        folder.prints("show s 0", "       0      1\n0  23503      .\n1  11202      .\n2      .  15002\n");
    }
}

#[test]
fn what_a_merge_prints() {
    let folder = office();
    folder.prints("merge s 0 a.sheet", "a.sheet: 1 cell changed\nplace 0: 3 entries\n");
    folder
        .prints("merge s 0 a.sheet b.sheet", "a.sheet: 0 cells changed\nb.sheet: 1 cell changed\nplace 0: 3 entries\n");
}

/// Only where the mask has a value other than 0.
#[test]
fn a_merge_with_a_mask() {
    let folder = office();
    folder.accept("merge s 0 a.sheet b.sheet c.sheet --mask 2");
    folder.prints("show s 0", "      0      1\n0  9101      .\n1     .      .\n2     .  15002\n");
}

#[test]
fn all_sheets_are_merged_or_none() {
    let folder = office();
    folder.accept("new other 100");
    folder.script("other", "lay 0 2 2\n");
    folder.accept("export other 0 small.sheet");
    let need = "The sheet, the place and the mask must have the same shape.";
    let about = "small.sheet is 2 by 2, place 0 is 3 by 2";
    assert_eq!(folder.fails("merge s 0 b.sheet small.sheet", 1), format!("refused (8): {need} ({about})\n"));
    folder.script("s", "lay 3 1 1\n");
    let message = folder.fails("merge s 0 b.sheet --mask 3", 1);
    assert!(message.ends_with("(b.sheet is 3 by 2, place 0 is 3 by 2, place 3 (mask) is 1 by 1)\n"), "{message}");
    folder.refuses("merge s 7 b.sheet", 13, "place 7");
    folder.refuses("merge s 0 b.sheet --mask 7", 13, "place 7");
    folder.refuses_12("merge s 8 b.sheet", "There is no place 8: places are 0 to 7.");
    let message = folder.fails("merge s 0 b.sheet nowhere", 3);
    assert!(message.starts_with("ostrubel: nowhere: "), "{message}");
    assert!(folder.fails("merge s 0 - -", 2).contains("standard input, which is -, can be read only once"));
    let message = folder.fails("merge s 0", 2);
    assert!(message.contains("SHEET.. is missing"), "{message}");
}

/// Nothing of a dry run is saved, and it tells what the call then does.
#[test]
fn dry_runs_of_writing_calls() {
    let folder = office();
    folder.write("script", "set 0 0 0 1\nclear 0 2 1\n");
    folder.write("names", "row 2 medicine cupboard\ncolumn 1 Anna\n");
    let before = folder.state("s");
    for (line, changes) in [
        ("set s 0 0 0 5", "place 0: 1 cell would change\n  row 0, column 0: 9101 -> 5\n"),
        ("clear s 0 2 1 --names names", "place 0: 1 cell would change\n  medicine cupboard, Anna: 14053 -> empty\n"),
        ("merge s 0 a.sheet b.sheet", "  row 1, column 0: empty -> 11202\n  row 2, column 1: 14053 -> 15002\n"),
        ("import s 0 b.sheet", "  row 0, column 0: 9101 -> empty\n  row 2, column 1: 14053 -> 15002\n"),
        (
            "apply s 0 0 --op minus --second 1 --mask 2",
            "place 0: 1 cell would change\n  row 2, column 1: 14053 -> 14052\n",
        ),
        (
            "run s script",
            "place 0: 2 cells would change\n  row 0, column 0: 9101 -> 1\n  row 2, column 1: 14053 -> empty\n",
        ),
        ("lay s 4 1 1", "place 4: empty -> 1 by 1, 0 entries; 0 cells would change\n"),
        ("drop s 2", "place 2: 3 by 2, 2 entries -> empty; 2 cells would change\n"),
        ("copy s 0 s 6", "place 6: empty -> 3 by 2, 2 entries; 2 cells would change\n"),
        ("resize s 2000", "the shelf: 1000 words -> 2000 words\n"),
        ("drop s 7", "no cell would change\n"),
    ] {
        let printed = folder.accept(&format!("{line} --dry-run"));
        assert!(printed.contains(changes), "{line}: {printed}");
        assert!(printed.ends_with("a dry run: nothing was saved\n"), "{line}: {printed}");
        assert_eq!(folder.state("s"), before, "{line}");
    }
    folder.refuses("set s 0 3 0 1 --dry-run", 7, "row 3, column 0, place 0 is 3 by 2");
    folder.prints("new t 100 --dry-run", "t: 100 words, all places empty\na dry run: nothing was saved\n");
    folder.prints("export s 0 t --dry-run", "t: 3 by 2, 2 entries\na dry run: nothing was saved\n");
    let drawn = "t: would be written\nt.html: would be written\na dry run: nothing was saved\n";
    folder.prints("show s 0 --svg t --html t.html --dry-run", drawn);
    assert!(folder.fails("show s 0 --dry-run", 2).contains("--dry-run and --wait go with --svg and --html"));
    assert!(!folder.names().iter().any(|name| name.starts_with('t')));
}

/// Whatever the call would be turned away for, the dry run is too, with the same words.
#[test]
fn dry_runs_are_turned_away_as_the_calls_are() {
    let folder = office();
    folder.write("note", "a note");
    fs::create_dir(folder.path("folder")).unwrap();
    let names = folder.names();
    for line in [
        "export s 0 note --format csv",
        "export s 0 nowhere/x",
        "export s 0 folder",
        "convert s --to note",
        "convert s --to nowhere/x",
        "new s 100",
        "new nowhere/x 100",
        "new note/x 100",
        "show s 0 --svg note",
        "show s 0 --html nowhere/x",
    ] {
        assert_eq!(folder.fails(line, 3), folder.fails(&format!("{line} --dry-run"), 3), "{line}");
    }
    assert_eq!((folder.names(), folder.bytes("note")), (names, b"a note".to_vec()));
    for line in ["convert s --to t --dry-run", "export s 0 t --dry-run", "show s 0 --svg t --dry-run"] {
        let output = folder.shell(&format!("ostrubel {line} >&-"));
        let message = "ostrubel: standard output cannot be written: it is closed\n";
        assert_eq!((output.status.code(), error_text(&output).as_str()), (Some(3), message), "{line}");
    }
}

#[test]
fn differences() {
    let folder = office();
    folder.script("s", "lay 1 3 2\nset 1 2 1 8301\nset 1 1 1 0\nset 1 0 0 9101\nlay 3 1 1\n");
    let lines = "  row 1, column 1: empty -> 0\n  row 2, column 1: 14053 -> 8301\n2 cells differ\n";
    folder.prints("diff s 0 1", lines);
    let picture = "      0      1\n0  9101      .\n1     .     0*\n2     .  8301*\n";
    folder.prints("diff s 0 1 --picture", &format!("{picture}{lines}"));
    folder.prints("diff s 1 1", "no cell differs\n");
    assert!(folder.accept("diff s 0 3").contains("3 by 2 -> 1 by 1\n"));
    folder.refuses("diff s 0 7", 13, "place 7 (Q)");
    folder.refuses_12("diff s 8 0", "There is no place 8 (P): places are 0 to 7.");
    assert!(folder.script("s", "diff 0 1\n").ends_with(lines));
}

#[test]
fn copies_between_shelves() {
    let folder = office();
    let before = folder.state("s");
    folder.prints("copy s 0 phone 4", "place 4: 3 by 2, 2 entries\n");
    assert_eq!(folder.accept("show phone 4"), folder.accept("show s 0"));
    assert_eq!(folder.state("s"), before);
    folder.prints("copy s 0 s 5", "place 5: 3 by 2, 2 entries\n");
    folder.prints("diff s 0 5", "no cell differs\n");
    folder.refuses("copy s 7 phone 0", 13, "place 7");
    folder.refuses_12("copy s 0 phone 9", "There is no place 9: places are 0 to 7.");
    folder.accept("new tiny 10");
    assert!(folder.fails("copy s 0 tiny 0", 1).starts_with("refused (11): "));
}

/// Control characters of a name and of a script are written out.
#[test]
fn control_characters_do_not_reach_the_terminal() {
    let folder = office();
    let name = "\u{1b}[31mred\u{7}\n";
    for words in
        [&["new", name, "100"][..], &["list", "no\u{1b}thing"], &["export", "s", "0", name], &["show", "s", name]]
    {
        let output = folder.command(OSTRUBEL).args(words).output().unwrap();
        let printed = [output.stdout, output.stderr].concat();
        assert!(!printed.iter().any(|byte| *byte < b' ' && *byte != b'\n'), "{words:?}");
        assert_eq!(printed.iter().filter(|byte| **byte == b'\n').count(), 1, "{words:?}");
    }
    folder.write("script", "# \u{1b}]0;title\u{7}\nread 0 0 0\nset 0 0 0 \u{9b}2J\n");
    let output = folder.run("run s script");
    let printed = String::from_utf8([output.stdout, output.stderr].concat()).unwrap();
    assert!(printed.starts_with("# \\u{1b}]0;title\\u{7}\n> read 0 0 0\n9101\n"), "{printed}");
    assert!(!printed.contains(['\u{1b}', '\u{7}', '\u{9b}']), "{printed}");
}
