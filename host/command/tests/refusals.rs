//! Refusals by number, damaged files and wrong usage: the file stays as it was, and is not even written again.

mod common;

use common::{error_text, guarded, guarded_as, text, Folder, OSTRUBEL};
use std::fs;
use std::os::unix::fs::symlink;

/// A shelf with a 2 by 3 sheet in place 0, a 3 by 3 in place 1, and a strip of 3 in place 2.
fn shelf() -> Folder {
    let folder = Folder::with_shelf();
    folder.script("s", "lay 0 2 3\nset 0 1 2 5\nlay 1 3 3\nset 1 0 0 1\nlay 2 1 3\nset 2 0 1 4\n");
    folder
}

#[test]
fn the_whole_message() {
    let message = shelf().fails("set s 5 0 0 1", 1);
    assert_eq!(message, "refused (13): The place holds no sheet: lay one there first. (place 5)\n");
}

#[test]
fn places_that_are_none_are_12() {
    let folder = shelf();
    for line in ["lay s 8 1 1", "drop s 8", "set s 8 0 0 1", "clear s 8 0 0", "read s 8 0 0", "show s 8"] {
        folder.refuses_12(line, "There is no place 8: places are 0 to 7.");
    }
    for (line, places) in [
        ("drop s -1", "place -1"),
        ("drop s 4294967296", "place 4294967296"),
        ("drop s 99999999999999999999", "place 99999999999999999999"),
        ("mxm s 0 8 1 --semiring plus.times", "place 8 (A)"),
        ("apply s 9 0 --op abs --mask 10", "place 10 (mask) and no place 9 (C)"),
        ("extract s 0 8 --rows all --cols 0..600", "place 8 (A)"),
    ] {
        folder.refuses_12(line, &format!("There is no {places}: places are 0 to 7."));
    }
}

#[test]
fn empty_places_are_13() {
    let folder = shelf();
    for line in ["set s 7 9 9 1", "clear s 7 9 9", "read s 7 9 9", "show s 7"] {
        folder.refuses(line, 13, "place 7");
    }
    folder.refuses("eWiseAdd s 6 0 3 --op max --mask 4", 13, "place 3 (B), place 4 (mask), place 6 (C)");
    folder.refuses("vxm s 2 5 1 --semiring plus.times", 13, "place 5 (U)");
    folder.refuses("extract s 0 7 --rows all --cols all", 13, "place 7 (A)");
    folder.refuses("extract s 0 7 --rows 0..600 --cols 0", 13, "place 7 (A)");
}

#[test]
fn rows_and_columns_past_the_sheet_are_7() {
    let folder = shelf();
    for command in ["clear", "read"] {
        folder.refuses(&format!("{command} s 0 2 0"), 7, "row 2, column 0, place 0 is 2 by 3");
    }
    folder.refuses("set s 0 0 3 1", 7, "row 0, column 3, place 0 is 2 by 3");
    folder.refuses("set s 0 -1 0 1", 7, "row -1, column 0, place 0 is 2 by 3");
    folder.refuses("set s 0 4294967296 0 1", 7, "row 4294967296, column 0, place 0 is 2 by 3");
    folder.refuses("extract s 1 0 --rows 0..2 --cols all", 7, "--rows has 2, place 0 (A) is 2 by 3");
    folder.refuses(
        "extract s 1 0 --rows 99999999999999999999 --cols all",
        7,
        "--rows has 99999999999999999999, place 0 (A) is 2 by 3",
    );
    folder.refuses("extract s 1 0 --rows all --cols 0,-1", 7, "--cols has -1, place 0 (A) is 2 by 3");
    folder.refuses(
        "extract s 1 0 --rows 0,3 --cols 2 --transpose-a",
        7,
        "--rows has 3, --cols has 2, place 0 (A) is 3 by 2 as transposed",
    );
    let zeros = vec!["0"; 1_001].join(",");
    let line = format!("extract s 1 0 --rows {zeros} --cols 0");
    folder.refuses(&line, 7, "--rows has more than 1000 indexes, place 0 (A) is 2 by 3");
    folder.refuses("extract s 1 0 --rows 0,0 --cols 0", 7, "--rows has 0 twice, place 0 (A) is 2 by 3");
    folder.refuses("extract s 1 0 --rows 1,0 --cols 2,0..2", 7, "--cols has 2 twice, place 0 (A) is 2 by 3");
}

#[test]
fn a_list_without_indexes_is_7() {
    let folder = shelf();
    folder.refuses("extract s 1 0 --rows= --cols 0", 7, "--rows has no index, place 0 (A) is 2 by 3");
}

#[test]
fn shapes_that_do_not_fit_are_8() {
    let folder = shelf();
    folder.refuses("lay s 0 1001 1", 8, "1001 by 1");
    folder.refuses("lay s 0 1 1001", 8, "1 by 1001");
    folder.refuses("lay s 0 1 0", 8, "1 by 0");
    folder.refuses("lay s 0 -4 99999999999999999999", 8, "-4 by 99999999999999999999");
    assert_eq!(
        folder.fails("lay s 0 1001 1", 1),
        "refused (8): A sheet has 1 to 1000 rows and 1 to 1000 columns. (1001 by 1)\n"
    );
}

/// What the operation needs, and the shapes that are not so.
#[test]
fn shapes_that_do_not_fit_an_operation() {
    let folder = shelf();
    folder.script("s", "lay 3 2 2\n");
    let product = "A must have as many columns as B has rows, and C the rows of A and the columns of B";
    let strip = "U must have one row and as many columns as A has rows, and C one row and the columns of A";
    let chosen = "C must have as many rows and columns as are chosen";
    let (same, mask) = ("A, B and C must have the same shape", "the mask must have the shape of C");
    for (line, need, about) in [
        (
            "mxm s 0 1 0 --semiring plus.times",
            product,
            "place 1 (A) has 3 columns, place 0 (B) has 2 rows, place 0 (C) is 2 by 3 and must be 3 by 3",
        ),
        ("mxm s 3 0 1 --semiring plus.times", product, "place 3 (C) is 2 by 2 and must be 2 by 3"),
        ("mxm s 3 0 0 --semiring plus.times --transpose-a", product, "place 3 (C) is 2 by 2 and must be 3 by 3"),
        (
            "mxm s 3 3 2 --semiring plus.times --transpose-b",
            product,
            "place 3 (A) has 2 columns, place 2 (B) has 3 rows as transposed, place 3 (C) is 2 by 2 and must be 2 by 1",
        ),
        ("vxm s 2 0 1 --semiring plus.times", strip, "place 0 (U) has 2 rows"),
        ("vxm s 2 2 0 --semiring plus.times", strip, "place 2 (U) has 3 columns, place 0 (A) has 2 rows"),
        ("vxm s 2 2 0 --semiring plus.times --transpose-b", strip, "place 2 (C) is 1 by 3 and must be 1 by 2"),
        ("eWiseAdd s 0 0 1 --op max", same, "place 0 (A) is 2 by 3, place 1 (B) is 3 by 3"),
        (
            "eWiseMult s 0 0 1 --op max --transpose-a",
            same,
            "place 0 (A) is 3 by 2 as transposed, place 1 (B) is 3 by 3",
        ),
        ("eWiseAdd s 1 0 0 --op max", same, "place 1 (C) is 3 by 3 and must be 2 by 3"),
        ("apply s 1 0 --op abs", "C must have the shape of A", "place 1 (C) is 3 by 3 and must be 2 by 3"),
        ("select s 1 0 --op tril", "C must have the shape of A", "place 1 (C) is 3 by 3 and must be 2 by 3"),
        (
            "reduceRows s 1 0 --monoid plus",
            "C must have one row, and a column for each row of A",
            "place 1 (C) is 3 by 3 and must be 1 by 2",
        ),
        (
            "assign s 1 0 --rows 0 --cols all",
            "A must have as many rows and columns as are chosen",
            "1 row and 3 columns are chosen, place 0 (A) is 2 by 3",
        ),
        (
            "kronecker s 3 0 1 --op times",
            "C must have as many rows and columns as A's times B's",
            "place 3 (C) is 2 by 2 and must be 6 by 9",
        ),
        ("apply s 0 0 --op abs --mask 1", mask, "place 1 (mask) is 3 by 3, place 0 (C) is 2 by 3"),
        (
            "apply s 0 0 --op abs --mask 1 --transpose-a",
            "C must have the shape of A; the mask must have the shape of C",
            "place 0 (C) is 2 by 3 and must be 3 by 2, place 1 (mask) is 3 by 3",
        ),
        ("extract s 3 0 --rows 0..1 --cols 2", chosen, "2 rows and 1 column are chosen, place 3 (C) is 2 by 2"),
        (
            "extract s 3 0 --rows all --cols all --transpose-a",
            chosen,
            "3 rows and 2 columns are chosen, place 3 (C) is 2 by 2",
        ),
    ] {
        let transposed = if line.contains("--transpose") { " as transposed" } else { "" };
        let expected = format!("refused (8): The shapes do not fit{transposed}: {need}. ({about})\n");
        assert_eq!(folder.fails(line, 1), expected, "{line}");
    }
}

#[test]
fn too_many_entries_are_10() {
    let folder = Folder::new();
    folder.accept("new s 16384");
    let cells = (0..2_048).map(|k| format!("set 1 {} {} 1\n", k / 4, k % 4));
    let full = format!("lay 0 1000 1000\nset 0 0 4 1\nlay 1 1000 1000\n{}", cells.collect::<String>());
    assert!(folder.script("s", &full).ends_with("place 1: 2048 entries\n"));
    folder.refuses("set s 1 0 4 1", 10, "place 1 has 2048 entries now");
    folder.refuses("eWiseAdd s 1 0 1 --op max", 10, "place 1 (C) has 2048 entries now");
    folder.prints("set s 1 0 0 9", "place 1: 2048 entries\n");
}

#[test]
fn too_little_room_is_11() {
    let folder = Folder::new();
    // Two sheets fill it.
    let used = |words: usize| format!("{words} of 31 words are used now");
    folder.accept("new s 31");
    folder.accept("lay s 0 2 2");
    folder.refuses("lay s 1 7 2", 11, &used(19));
    folder.accept("lay s 1 1 2");
    folder.accept("set s 1 0 0 3");
    folder.refuses("set s 0 0 0 3", 11, &used(31));
    folder.refuses("apply s 0 0 --op abs --mask 7", 13, "place 7 (mask)");
    folder.accept("set s 1 0 0 4");
    folder.accept("lay s 0 1 2");
    folder.refuses("lay s 2 1 2", 11, &used(30));
}

#[test]
fn a_new_shelf_of_a_wrong_length_is_12() {
    let folder = Folder::with_shelf();
    for words in ["7", "0", "-8", "16385", "99999999999999999999"] {
        folder.refuses_12(&format!("new t {words}"), &format!("A shelf has 8 to 16384 words, and not {words}."));
    }
    assert_eq!(folder.names(), ["s"]);
}

#[test]
fn a_new_shelf_overwrites_nothing() {
    let folder = shelf();
    symlink("nowhere", folder.path("link")).unwrap();
    fs::create_dir(folder.path("folder")).unwrap();
    for name in ["s", "link", "folder"] {
        let message = folder.fails(&format!("new {name} 100"), 3);
        assert_eq!(message, format!("ostrubel: {name}: is there already, and stays as it is\n"));
    }
    assert_eq!(folder.names(), ["folder", "link", "s"]);
}

/// Each of these is no shelf: 12 for every command, and the bytes stay.
#[test]
fn damaged_files_are_12() {
    let folder = shelf();
    let sound = folder.words("s");
    let changed = |position: usize, byte: u8| {
        let mut bytes = sound.clone();
        bytes[position] = byte;
        bytes
    };
    let damaged: Vec<(&str, Vec<u8>)> = vec![
        ("no bytes", Vec::new()),
        ("7 words", vec![0; 28]),
        ("8 words and a byte", vec![0; 33]),
        ("a byte short", sound[..sound.len() - 1].to_vec()),
        ("16,385 words", vec![0; 65_540]),
        ("a byte more than the longest", vec![0; 65_537]),
        ("1 MB", vec![0; 1 << 20]),
        ("a count that is too large", changed(0, 16)),
        ("1,027 columns", changed(21, 4)),
        ("a row start that falls", changed(28, 200)),
        ("a word behind the last section", changed(3999, 1)),
        ("a text", b"These are not the words of a shelf.\n".repeat(4)),
    ];
    for (what, bytes) in damaged {
        folder.write("s", &bytes);
        folder.write("script", "# a story\nlay 0 2 2\n");
        refuse_all(&folder, &no_shelf(&size(bytes.len())), what);
        // The same words within a guard, where they are whole words.
        if bytes.len() % 4 == 0 && bytes.len() < 65_536 {
            folder.write("s", guarded(&bytes));
            refuse_all(&folder, &no_shelf(&size(bytes.len() + 20)), what);
        }
    }
}

fn size(bytes: usize) -> String {
    if bytes > 65_556 {
        "more than 65556".to_string()
    } else {
        bytes.to_string()
    }
}

/// Each command is refused by 12 with this sentence, and the bytes stay.
fn refuse_all(folder: &Folder, sentence: &str, what: &str) {
    let bytes = folder.bytes("s");
    for line in [
        "list s",
        "read s 0 0 0",
        "show s 0",
        "set s 0 0 0 1",
        "set s 0 0 0 1 --dry-run",
        "lay s 9 0 0",
        "drop s 0",
        "run s script",
        "convert s",
    ] {
        folder.refuses_12(line, sentence);
    }
    assert_eq!(folder.bytes("s"), bytes, "{what}");
}

/// A file whose guard does not fit what is in it. A flipped bit made "lost" (14053) "returned" (14052) before there was
/// one.
#[test]
fn a_damaged_guard_is_12() {
    let folder = Folder::with_shelf();
    folder.script("s", "lay 0 1 1\nset 0 0 0 14053\n");
    folder.write("script", "lay 0 2 2\n");
    let sound = folder.bytes("s");
    let value = sound.windows(4).position(|word| word == 14_053_u32.to_le_bytes()).unwrap();
    let flipped = |position: usize| {
        let mut bytes = sound.clone();
        bytes[position] ^= 1;
        bytes
    };
    let checksum = "s is a damaged shelf: its checksum does not fit its words (4020 bytes); take a sound copy.";
    let length =
        |bytes| format!("s is a damaged shelf: it has bytes too many or too few ({bytes} bytes); take a sound copy.");
    for (what, bytes, sentence) in [
        ("a value", flipped(value), checksum.to_string()),
        ("the version", flipped(8), checksum.to_string()),
        ("the checksum", flipped(sound.len() - 1), checksum.to_string()),
        ("the number of words", flipped(12), length(4020)),
        ("the magic", flipped(3), no_shelf("4020")),
        ("cut short", sound[..4000].to_vec(), length(4000)),
        ("a byte more", [&sound[..], &[0]].concat(), length(4021)),
        ("a word more", [&sound[..], &[0; 4]].concat(), length(4024)),
        ("the front alone", sound[..16].to_vec(), length(16)),
    ] {
        folder.write("s", bytes);
        refuse_all(&folder, &sentence, what);
    }
    folder.write("s", guarded_as(77, &[0; 400]));
    refuse_all(&folder, "s is a shelf of version 77, which this command does not know: take a later one.", "version");
}

fn no_shelf(bytes: &str) -> String {
    format!("s is not a shelf, or is damaged ({bytes} bytes): check the name, or take a sound copy.")
}

/// Random bytes of a shelf's length never crash the command: they are refused.
#[test]
fn random_bytes_are_12() {
    let folder = Folder::with_shelf();
    let mut state = 1_u64;
    for _ in 0..20 {
        let bytes: Vec<u8> = (0..400)
            .map(|position| {
                state = state.wrapping_mul(6_364_136_223_846_793_005).wrapping_add(1_442_695_040_888_963_407);
                if position % 4 == 0 {
                    (state >> 60) as u8
                } else {
                    (state >> 56) as u8 & 1
                }
            })
            .chain([1])
            .chain([0; 3])
            .collect();
        folder.write("s", &bytes);
        folder.refuses_12("list s", &no_shelf("404"));
    }
}

#[test]
fn wrong_usage() {
    let folder = shelf();
    for (line, hint) in [
        ("frobnicate s", "no command \"frobnicate\" (see: ostrubel help)"),
        ("help frobnicate", "no help about \"frobnicate\" (see: ostrubel help)"),
        ("help lay set", "help: one command at a time (see: ostrubel help)"),
        ("-h extra", "-h: \"extra\" is one word too many (see: ostrubel help)"),
        ("--help extra", "--help: \"extra\" is one word too many (see: ostrubel help)"),
        ("--version extra", "--version: \"extra\" is one word too many (see: ostrubel help)"),
        (
            "mxm --semiring plus.times",
            "mxm: FILE is missing; write: ostrubel mxm FILE C A B --semiring ADD.MULTIPLY \
             (see: ostrubel help mxm)",
        ),
        (
            "show s 0 -- --replace",
            "show: \"--replace\" is one word too many; write: ostrubel show FILE PLACE \
             (see: ostrubel help show)",
        ),
        ("list", "list: FILE is missing; write: ostrubel list FILE (see: ostrubel help list)"),
        ("list s 0", "list: \"0\" is one word too many; write: ostrubel list FILE (see: ostrubel help list)"),
        ("lay s 0 2", "lay: COLS is missing; write: ostrubel lay FILE PLACE ROWS COLS (see: ostrubel help lay)"),
        ("lay s x 2 2", "lay: PLACE is a whole number, and not \"x\" (see: ostrubel help lay)"),
        ("lay s 0 2 1.5", "lay: COLS is a whole number, and not \"1.5\" (see: ostrubel help lay)"),
        ("new t", "new: WORDS is missing; write: ostrubel new FILE WORDS (see: ostrubel help new)"),
        ("new t ten", "new: WORDS is a whole number, and not \"ten\" (see: ostrubel help new)"),
        ("run s", "run: SCRIPT is missing; write: ostrubel run FILE SCRIPT (see: ostrubel help run)"),
        ("run s --mask 1 a", "run: --mask is no option of run (see: ostrubel help run)"),
        ("set s 0 0 0 1 --mask 1", "set: --mask is no option of set (see: ostrubel help set)"),
        (
            "mxm s 0 1 1",
            "mxm: --semiring is missing; write: ostrubel mxm FILE C A B --semiring ADD.MULTIPLY \
             (see: ostrubel help mxm)",
        ),
        ("mxm s 0 1 1 --semiring", "mxm: --semiring wants a value behind it (see: ostrubel help mxm)"),
        ("mxm s 0 1 1 --semiring --replace", "mxm: --semiring wants a value behind it (see: ostrubel help mxm)"),
        (
            "mxm s 0 1 1 --op max",
            "mxm: --semiring is missing; write: ostrubel mxm FILE C A B --semiring ADD.MULTIPLY \
             (see: ostrubel help mxm)",
        ),
        ("mxm s 0 1 1 --semiring max.min --op max", "mxm: --op is no option of mxm (see: ostrubel help mxm)"),
        ("mxm s 0 1 1 --frob", "mxm: --frob is no option of mxm (see: ostrubel help mxm)"),
        ("apply s 0 0 --op abs --replace=1", "apply: --replace takes no value (see: ostrubel help apply)"),
        ("apply s 0 0 --op abs --op one", "apply: --op is given twice (see: ostrubel help apply)"),
        ("apply s 0 0 --op abs --mask x", "apply: --mask is a whole number, and not \"x\" (see: ostrubel help apply)"),
        (
            "extract s 0 0 --rows 1",
            "extract: --cols is missing; write: ostrubel extract FILE C A --rows LIST --cols LIST \
             (see: ostrubel help extract)",
        ),
        (
            "extract s 0 0 --rows 9..5 --cols 1",
            "extract: --rows: the range 9..5 runs backwards (see: ostrubel help extract)",
        ),
    ] {
        assert_eq!(folder.fails(line, 2), format!("ostrubel: {hint}\n"), "{line}");
    }
    assert_eq!(folder.names(), ["s"]);
}

#[test]
fn names_that_are_no_operators() {
    let folder = shelf();
    let binary = "first, second, oneb, plus, minus, times, min, max";
    for (line, hint) in [
        ("eWiseAdd s 0 0 0 --op abs", format!("eWiseAdd: --op: no operator \"abs\": there are {binary}")),
        ("eWiseAdd s 0 0 0 --op max --accum or", format!("eWiseAdd: --accum: no operator \"or\": there are {binary}")),
        (
            "mxm s 0 0 0 --semiring minus.times",
            format!(
                "mxm: --semiring: no semiring \"minus.times\": it is one of plus, times, min, max, a dot, and one of \
                 {binary}"
            ),
        ),
        (
            "apply s 0 0 --op sqrt",
            format!(
                "apply: --op: no operator \"sqrt\": there are identity, ainv, abs, lnot, one, rowindex, colindex, \
                 diagindex, {binary}"
            ),
        ),
    ] {
        let message = folder.fails(line, 2);
        assert!(message.starts_with(&format!("ostrubel: {hint} (see: ")), "{message}");
    }
}

#[test]
fn values_out_of_range_are_wrong_usage() {
    let folder = shelf();
    let range = "is a whole number from -2147483648 to 2147483647, and not";
    for value in ["2147483648", "-2147483649", "99999999999999999999", "1.0", "x"] {
        let expected = format!("ostrubel: set: VALUE {range} \"{value}\" (see: ostrubel help set)\n");
        assert_eq!(folder.fails(&format!("set s 0 0 0 {value}"), 2), expected);
        for option in ["--first", "--second"] {
            let expected = format!("ostrubel: apply: {option} {range} \"{value}\" (see: ostrubel help apply)\n");
            assert_eq!(folder.fails(&format!("apply s 0 0 --op plus {option} {value}"), 2), expected);
        }
    }
}

const NO_MASK: &str = "--complement writes no cell without --mask: is --mask PLACE missing? \
                       To empty C: --complement --replace, without --accum";

#[test]
fn options_that_would_do_nothing_are_wrong_usage() {
    let folder = shelf();
    for (line, hint) in [
        (
            "vxm s 2 2 1 --semiring plus.times --transpose-a",
            "vxm: the strip U is never transposed; --transpose-b transposes the sheet A",
        ),
        (
            "apply s 0 0 --op abs --transpose-b",
            "apply: there is no second input for --transpose-b; --transpose-a transposes the sheet A",
        ),
        (
            "extract s 0 0 --rows all --cols all --transpose-b",
            "extract: there is no second input for --transpose-b; --transpose-a transposes the sheet A",
        ),
        ("apply s 0 0 --op abs --complement", &format!("apply: {NO_MASK}")),
        ("apply s 0 0 --op abs --complement --accum max", &format!("apply: {NO_MASK}")),
        ("apply s 0 0 --op abs --complement --replace --accum max", &format!("apply: {NO_MASK}")),
        ("apply s 0 0 --op abs --complement --structural", &format!("apply: {NO_MASK}")),
        ("apply s 0 0 --op abs --structural", "apply: --structural does nothing without --mask"),
        (
            "apply s 0 0 --op abs --replace",
            "apply: --replace does nothing without --mask or --complement: no cell is outside",
        ),
        ("apply s 0 0 --op abs --scalar 0", "apply: ABS takes no --first, --second or --scalar"),
        ("apply s 0 0 --op one --first 3", "apply: ONE takes no --first, --second or --scalar"),
        ("apply s 0 0 --op plus", "apply: PLUS wants either --first N or --second N"),
        ("apply s 0 0 --op plus --first 1 --second 1", "apply: PLUS wants either --first N or --second N"),
        ("apply s 0 0 --op plus --scalar 1", "apply: PLUS wants either --first N or --second N"),
        ("apply s 0 0 --op rowindex --first 1", "apply: ROWINDEX takes --scalar, not --first or --second"),
    ] {
        let message = folder.fails(line, 2);
        assert!(message.starts_with(&format!("ostrubel: {hint} (see: ")), "{message}");
    }
}

#[test]
fn files_that_cannot_be_opened() {
    let folder = shelf();
    fs::create_dir(folder.path("folder")).unwrap();
    assert!(folder.shell("mkfifo pipe").status.success());
    symlink("nothing", folder.path("link")).unwrap();
    for (line, hint) in [
        ("list nowhere", "nowhere: there is no such file; make a shelf with: ostrubel new nowhere 1000"),
        ("set nowhere 0 0 0 1", "nowhere: there is no such file; make a shelf with: ostrubel new nowhere 1000"),
        ("list no/where", "no/where: the folder no does not exist"),
        ("set link 0 0 0 1", "link: this link leads to no file"),
        ("new no/where 100", "no/where: the folder no does not exist"),
        ("list folder", "folder: is not a file that can hold a shelf"),
        ("set folder 0 0 0 1", "folder: is not a file that can hold a shelf"),
        ("list pipe", "pipe: is not a file that can hold a shelf"),
        ("set pipe 0 0 0 1", "pipe: is not a file that can hold a shelf"),
        ("list /dev/zero", "/dev/zero: is not a file that can hold a shelf"),
        ("run s nowhere", "nowhere: No such file or directory (os error 2)"),
        ("run s folder", "folder: Is a directory (os error 21)"),
    ] {
        assert_eq!(folder.fails(line, 3), format!("ostrubel: {hint}\n"), "{line}");
    }
    assert_eq!(folder.names(), ["folder", "link", "pipe", "s"]);
}

/// Words that are no text are no numbers and no names.
#[test]
fn words_that_are_no_text() {
    use std::ffi::OsStr;
    use std::os::unix::ffi::OsStrExt;
    let folder = shelf();
    let word = OsStr::from_bytes(b"\xff");
    for words in [vec![word], vec![OsStr::new("show"), OsStr::new("s"), word]] {
        let output = folder.command(OSTRUBEL).args(words).output().unwrap();
        assert_eq!((output.status.code(), text(&output)), (Some(2), String::new()), "{}", error_text(&output));
    }
}
