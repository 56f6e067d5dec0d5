//! Shelves of before there was a guard: they are read, and one command converts them.

mod common;

use common::{guarded, guarded_as, text, Folder};
use std::fs;

/// A folder whose shelf `s` has two sheets and is bare, as an earlier command left it.
fn bare() -> (Folder, Vec<u8>) {
    let folder = Folder::with_shelf();
    folder.script("s", "lay 0 2 3\nset 0 1 2 14053\nlay 5 1 1\nset 5 0 0 -1\n");
    let words = folder.words("s");
    folder.write("s", &words);
    (folder, words)
}

#[test]
fn a_bare_shelf_is_read_and_not_written() {
    let (folder, words) = bare();
    folder.prints("read s 0 1 2", "14053\n");
    folder.prints("show s 5", "    0\n0  -1\n");
    folder.accept("list s");
    folder.accept("export s 0 a.sheet");
    folder.write("script", "lay 1 1 1\n");
    let message = "ostrubel: s: this shelf has an earlier form, which is read but not written; nothing was saved. \
                   Convert it once, and nothing of it is lost: ostrubel convert s\n";
    for line in
        ["set s 0 0 0 1", "drop s 4", "set s 0 0 0 1 --dry-run", "run s script", "merge s 0 a.sheet", "resize s 99"]
    {
        assert_eq!(folder.fails(line, 3), message, "{line}");
    }
    assert_eq!(folder.bytes("s"), words);
}

#[test]
fn converting_keeps_all() {
    let (folder, words) = bare();
    let list = folder.accept("list s");
    folder.prints("convert s --dry-run", "s: converted, all sheets kept\na dry run: nothing was saved\n");
    assert_eq!(folder.bytes("s"), words);
    folder.prints("convert s", "s: converted, all sheets kept\n");
    assert_eq!(folder.bytes("s"), guarded(&words));
    folder.prints("list s", &list);
    let before = folder.state("s");
    folder.prints("convert s", "s: has the form of today, and stays as it is\n");
    assert_eq!(folder.state("s"), before);
    folder.prints("set s 0 0 0 1", "place 0: 2 entries\n");
}

/// The hint of a refused call, pasted into a shell.
#[test]
fn the_hint_can_be_pasted() {
    let (folder, words) = bare();
    for name in ["my keys", "it's; $HOME", "-n", "a\nb"] {
        fs::write(folder.path(name), &words).unwrap();
        let file = common::OSTRUBEL;
        let output = folder.command(file).args(["drop", "--", name, "0"]).output().unwrap();
        let message = String::from_utf8(output.stderr).unwrap();
        assert_eq!(message.lines().count(), 1, "{message}");
        let (_, hint) = message.trim_end().split_once("is lost: ").unwrap();
        let pasted = folder.command("bash").args(["-c", &hint.replacen("ostrubel", file, 1)]).output().unwrap();
        assert!(text(&pasted).ends_with(": converted, all sheets kept\n"), "{hint}");
        assert_eq!(fs::read(folder.path(name)).unwrap(), guarded(&words), "{name}");
    }
}

#[test]
fn some_places_into_another_file() {
    let (folder, words) = bare();
    folder.prints("convert s --places 4..7 --to t", "s: stays as it is; t has its sheets\n");
    assert_eq!(folder.bytes("s"), words);
    folder.prints("read t 5 0 0", "-1\n");
    folder.refuses("show t 0", 13, "place 0");
    for line in
        ["convert s --places 9 --to u", "convert s --places 0,8 --to u", "convert s --places 8 --to u --dry-run"]
    {
        let place = if line.contains('9') { 9 } else { 8 };
        folder.refuses_12(line, &format!("There is no place {place}: places are 0 to 7."));
    }
    assert!(!folder.names().contains(&"u".to_string()));
    let message = folder.fails("convert s --places 4..7", 2);
    assert!(message.contains("--places goes with --to: what is not chosen would be lost"), "{message}");
    let message = folder.fails("convert s --to t", 3);
    assert_eq!(message, "ostrubel: t: is there already, and stays as it is\n");
}

/// The words of a shelf of before sheets had revisions: a 1 by 2 sheet in place 1, in a shelf that it fills.
fn words_without_revisions() -> Vec<u8> {
    let words: [u32; 18] = [0, 10, 2, 1, 2, 2, 0, 1, 1, 1, 1, 14_053, 0, 0, 0, 0, 0, 0];
    words.iter().flat_map(|word| word.to_le_bytes()).collect()
}

/// Bare or within a guard of version 1: it is read, and one command converts it, with the words that it needs.
#[test]
fn a_shelf_without_revisions() {
    for bytes in [words_without_revisions(), guarded_as(1, &words_without_revisions())] {
        let folder = Folder::new();
        folder.write("s", &bytes);
        folder.prints("read s 1 0 1", "14053\n");
        folder.prints("revision s 1", "0\n");
        assert!(folder.fails("drop s 1", 3).ends_with("nothing of it is lost: ostrubel convert s\n"));
        folder.prints("convert s", "s: converted, all sheets kept\n");
        assert_eq!(folder.words("s").len(), 72 + 8);
        folder.prints("show s 1", "   0      1\n0  .  14053\n");
        folder.prints("set s 1 0 1 14054", "place 1: 1 entry\n");
        folder.prints("revision s 1", "1\n");
    }
}

/// A shelf of the longest length whose sheets have no room for revisions is converted in parts.
#[test]
fn a_full_shelf_without_revisions() {
    // Eight sheets that leave fewer words free than their revisions take.
    let sheet = |entries: u32| -> Vec<u32> {
        let rows = 999;
        let starts = (0..=rows).map(|row| row.min(entries));
        let mut words = vec![2, rows, 1, rows + 1];
        words.extend(starts.chain([entries]).chain((0..entries).map(|_| 0)).chain([entries]).chain(0..entries));
        words
    };
    let mut words = Vec::new();
    for place in 0..8 {
        let sheet = sheet(if place < 4 { 520 } else { 521 });
        words.push(sheet.len() as u32);
        words.extend(sheet);
    }
    assert!(words.len() <= 16_384 && words.len() + 16 > 16_384, "{}", words.len());
    words.resize(16_384, 0);
    let bytes: Vec<u8> = words.iter().flat_map(|word| word.to_le_bytes()).collect();
    let folder = Folder::new();
    folder.write("s", &bytes);
    let message = folder.fails("convert s", 1);
    assert!(message.starts_with("refused (11): This shelf has an earlier form"), "{message}");
    assert!(message.contains("ostrubel convert s --places 0..3 --to OTHER"), "{message}");
    folder.accept("convert s --places 0..3 --to a");
    folder.accept("convert s --places 4..7 --to b");
    assert_eq!(folder.bytes("s"), bytes);
    folder.prints("reduce a 0 --monoid max", "519\n");
    folder.prints("reduce b 7 --monoid max", "520\n");
}
