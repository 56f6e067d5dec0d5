//! `ostrubel day`: rows rewritten for a day, in sheet files.

mod common;

use common::{error_text, Folder};
use std::fs;
use std::thread;

/// The base sheet 3 by 2 with 10, 11 and 12, a day without rows, marks without marks, and two new rows.
fn site() -> Folder {
    let folder = Folder::with_shelf();
    folder.script("s", "lay 0 3 2\nset 0 0 0 10\nset 0 1 0 11\nset 0 2 1 12\nlay 1 3 2\nlay 2 1 3\n");
    folder.script("s", "lay 3 1 2\nset 3 0 1 21\nlay 4 1 2\n");
    for (place, sheet) in ["base", "day", "marks", "new", "none"].iter().enumerate() {
        folder.accept(&format!("export s {place} {sheet}"));
    }
    folder
}

#[test]
fn a_day_is_rewritten_shown_and_folded() {
    let folder = site();
    folder.accept("day rewrite day marks 1 new");
    folder.accept("day rewrite day marks 2 none");
    folder.prints("day read base day marks 1 1", "21\n");
    folder.prints("day read base day marks 1 0", "empty\n");
    folder.prints("day read base day marks 2 1", "empty\n");
    folder.prints("day show base day marks 0", "0 10\n1 entry\n");
    folder.prints("day show base day marks 2", "0 entries\n");
    folder.prints("day fold base day marks out", "out: 3 by 2, 2 entries\n");
    folder.prints("print out", "3 2 2\n0 0 10\n1 1 21\n");
    folder.accept("day back day marks 1");
    folder.prints("day read base day marks 1 0", "11\n");
    folder.prints("print marks", "1 3 1\n0 2 1\n");
}

#[test]
fn refusals_change_no_file() {
    let folder = site();
    let before = (folder.state("day"), folder.state("marks"));
    assert!(folder.fails("day rewrite day marks 3 new", 1).starts_with("refused (7)"));
    assert!(folder.fails("day rewrite day marks 0 base", 1).starts_with("refused (8)"));
    assert!(folder.fails("day back day marks 3", 1).starts_with("refused (7)"));
    assert!(folder.fails("day read base day new 0 0", 1).starts_with("refused (8)"));
    assert!(folder.fails("day show base day marks 3", 1).starts_with("refused (7)"));
    folder.fails("day", 2);
    folder.fails("day fold base day marks", 2);
    folder.fails("day mend base", 2);
    assert!(folder.fails("day fold base - - out", 2).contains("can be read only once"));
    assert_eq!((folder.state("day"), folder.state("marks")), before);
}

/// Forty rows, eight commands at a time: no row is lost.
#[test]
fn rows_that_are_rewritten_at_once_are_all_there() {
    const ROWS: usize = 40;
    let folder = Folder::with_shelf();
    folder.script("s", &format!("lay 0 {ROWS} 2\nlay 1 1 {ROWS}\nlay 2 1 2\nset 2 0 1 7\n"));
    for (place, sheet) in ["day", "marks", "new"].iter().enumerate() {
        folder.accept(&format!("export s {place} {sheet}"));
    }
    thread::scope(|scope| {
        for first in 0..8 {
            let folder = &folder;
            scope.spawn(move || {
                for row in (first..ROWS).step_by(8) {
                    let output = folder.run(&format!("day rewrite day marks {row} new"));
                    assert!(output.status.success(), "{}", error_text(&output));
                }
            });
        }
    });
    assert!(folder.accept("print day").starts_with("40 2 40\n"));
    assert!(folder.accept("print marks").starts_with("1 40 40\n"));
    assert_eq!(folder.names(), ["day", "marks", "new", "s"]);
}

/// Two sheets of one row and one column each can be either: commands name them in both orders at once.
#[test]
fn files_named_in_both_orders() {
    let folder = Folder::with_shelf();
    folder.script("s", "lay 0 1 1\n");
    for sheet in ["a", "b", "new"] {
        folder.accept(&format!("export s 0 {sheet}"));
    }
    thread::scope(|scope| {
        for pair in ["a b", "b a"].repeat(4) {
            let folder = &folder;
            scope.spawn(move || {
                for _ in 0..20 {
                    let output = folder.shell(&format!("timeout 20 ostrubel day rewrite {pair} 0 new"));
                    assert!(output.status.success(), "{}", error_text(&output));
                }
            });
        }
    });
}

#[test]
fn one_file_is_not_two() {
    let folder = site();
    fs::hard_link(folder.path("day"), folder.path("other")).unwrap();
    let before = folder.state("day");
    for (line, name) in [("day back day ./day 0", "./day"), ("day rewrite day other 0 new", "other")] {
        assert_eq!(folder.fails(line, 3), format!("ostrubel: {name}: is the same file as day\n"));
    }
    assert_eq!(folder.state("day"), before);
}

#[test]
fn dry_runs_and_waiting() {
    let folder = site();
    folder.accept("day rewrite day marks 2 new");
    let before = (folder.state("day"), folder.state("marks"), folder.names());
    folder.prints(
        "day rewrite day marks 1 new --dry-run",
        "day: 1 cell would change\n  row 1, column 1: empty -> 21\nmarks: 1 cell would change\n  \
         row 0, column 1: empty -> 1\na dry run: nothing was saved\n",
    );
    folder.prints(
        "day back day marks 2 --dry-run",
        "marks: 1 cell would change\n  row 0, column 2: 1 -> empty\nday: 1 cell would change\n  \
         row 2, column 1: 21 -> empty\na dry run: nothing was saved\n",
    );
    folder.prints("day fold base day marks out --dry-run", "out: 3 by 2, 3 entries\na dry run: nothing was saved\n");
    assert!(folder.fails("day rewrite day marks 3 new --dry-run", 1).starts_with("refused (7)"));
    assert!(folder.fails("day fold base day marks s --dry-run", 3).contains("is no sheet file"));
    assert_eq!((folder.state("day"), folder.state("marks"), folder.names()), before);
    let held = fs::File::open(folder.path("marks")).unwrap();
    held.lock().unwrap();
    for line in ["day rewrite day marks 1 new", "day back day marks 2", "day fold base day marks marks"] {
        let message = folder.fails(&format!("{line} --wait 0"), 3);
        assert!(message.starts_with("ostrubel: marks: another command has it, and 0 s of waiting"), "{message}");
    }
    for line in ["day read base day marks 0 0 --dry-run", "day show base day marks 0 --wait 1"] {
        assert!(folder.fails(line, 2).contains("--dry-run and --wait go with rewrite, back and fold"));
    }
}

/// Where the second file cannot be saved, the first is not either.
#[test]
fn both_files_or_none() {
    let folder = site();
    fs::create_dir(folder.path("far")).unwrap();
    fs::rename(folder.path("marks"), folder.path("far/marks")).unwrap();
    let before = folder.state("day");
    let full = "for n in $(seq 0 99); do mkdir far/.ostrubel-$$-$n.new; done; ";
    let output = folder.shell(&format!("{full} exec ostrubel day rewrite day far/marks 1 new"));
    let message = "ostrubel: far/marks: not saved, and as it was before: File exists (os error 17)\n";
    assert_eq!((output.status.code(), error_text(&output).as_str()), (Some(3), message));
    assert_eq!(folder.state("day"), before);
}
