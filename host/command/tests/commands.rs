//! Every command, with what it prints.

mod common;

use common::{error_text, text, Folder, OSTRUBEL};

#[test]
fn a_new_shelf() {
    let folder = Folder::new();
    folder.prints("new s 8", "s: 8 words, all places empty\n");
    assert_eq!(folder.words("s"), [0; 32]);
    folder.prints("new t 16384", "t: 16384 words, all places empty\n");
    assert_eq!(folder.words("t"), [0; 65_536]);
    assert_eq!(folder.names(), ["s", "t"]);
}

#[test]
fn lay_and_drop() {
    let folder = Folder::with_shelf();
    folder.prints("lay s 2 3 4", "place 2: 3 by 4, 0 entries\n");
    folder.prints("show s 2", "   0  1  2  3\n0  .  .  .  .\n1  .  .  .  .\n2  .  .  .  .\n");
    folder.prints("lay s 2 1 2", "place 2: 1 by 2, 0 entries\n");
    folder.prints("show s 2", "   0  1\n0  .  .\n");
    folder.prints("drop s 2", "place 2: empty\n");
    folder.prints("drop s 2", "place 2: empty\n");
    assert_eq!(folder.words("s"), [0; 4000]);
}

#[test]
fn set_clear_and_read() {
    let folder = Folder::with_shelf();
    folder.accept("lay s 0 3 3");
    folder.prints("read s 0 1 2", "empty\n");
    folder.prints("set s 0 1 2 9", "place 0: 1 entry\n");
    folder.prints("set s 0 0 0 -2147483648", "place 0: 2 entries\n");
    folder.prints("set s 0 2 2 2147483647", "place 0: 3 entries\n");
    folder.prints("set s 0 1 2 0", "place 0: 3 entries\n");
    folder.prints("read s 0 1 2", "0\n");
    folder.prints("read s 0 0 0", "-2147483648\n");
    folder.prints("read s 0 2 2", "2147483647\n");
    folder.prints("read s 0 1 2 --position", "0 1\n");
    folder.prints("clear s 0 1 2", "place 0: 2 entries\n");
    folder.prints("clear s 0 1 2", "place 0: 2 entries\n");
    folder.prints("read s 0 1 2", "empty\n");
    folder.prints("read s 0 1 0 --position", "empty 1\n");
    folder.prints("read --position s 0 2 2", "2147483647 1\n");
}

/// Document 01's strip, word by word.
#[test]
fn the_words_in_the_file() {
    let folder = Folder::with_shelf();
    folder.script("s", "lay 1 1 4\nset 1 0 3 -5\nset 1 0 0 10\nset 1 0 1 20\n");
    let sheet = [1, 3, 2, 1, 4, 2, 0, 3, 3, 0, 1, 3, 3, 10, 20, 4_294_967_291];
    let words = [&[0, sheet.len() as u32], &sheet[..]].concat();
    let mut bytes: Vec<u8> = words.iter().flat_map(|word: &u32| word.to_le_bytes()).collect();
    bytes.resize(4000, 0);
    assert_eq!(folder.words("s"), bytes);
}

#[test]
fn show_and_list() {
    let folder = Folder::with_shelf();
    folder.script("s", "lay 0 2 3\nset 0 0 0 7\nset 0 1 2 -40\nlay 6 1 1\nset 6 0 0 1\n");
    folder.prints("show s 0", "   0  1    2\n0  7  .    .\n1  .  .  -40\n");
    let first = "place 0: 2 by 3, 2 entries, 15 words, revision 2\n";
    let second = "place 6: 1 by 1, 1 entry, 12 words, revision 1\n";
    let empty = |places: [u32; 5]| places.map(|place| format!("place {place}: empty\n")).concat();
    let words = "words: 35 used, 965 free, 1000 in all\n";
    folder.prints("list s", &format!("{first}{}{second}place 7: empty\n{words}", empty([1, 2, 3, 4, 5])));
    folder.prints("revision s 0", "2\n");
    folder.prints("show s 0 --revision", "   0  1    2\n0  7  .    .\n1  .  .  -40\nrevision 2\n");
    folder.refuses("revision s 1", 13, "place 1");
}

#[test]
fn reading_commands_leave_the_file_alone() {
    let folder = Folder::with_shelf();
    folder.script("s", "lay 0 2 3\nset 0 0 0 7\n");
    let before = folder.state("s");
    for line in ["read s 0 0 0", "show s 0", "list s"] {
        folder.accept(line);
        assert_eq!(folder.state("s"), before, "{line}");
    }
}

/// A shelf with the matrices of the worked example P1 in places 0 and 1, and an empty 1 by 3 and 1 by 4 in 2 and 3.
fn worked_example() -> Folder {
    let folder = Folder::with_shelf();
    folder.script(
        "s",
        "lay 0 1 4\nset 0 0 0 10\nset 0 0 1 20\nset 0 0 3 40\n\
         lay 1 4 3\nset 1 0 1 3\nset 1 0 2 2\nset 1 1 0 9\nset 1 1 1 6\nset 1 2 1 3\nset 1 2 2 1\n\
         set 1 3 0 0\nset 1 3 1 5\n\
         lay 2 1 3\nlay 3 1 4\n",
    );
    folder
}

#[test]
fn mxm_and_vxm() {
    let folder = worked_example();
    let picture = "    0   1   2\n0  69  84  12\n";
    folder.prints("mxm s 2 0 1 --semiring plus.plus", "place 2: 3 entries\n");
    folder.prints("show s 2", picture);
    folder.accept("lay s 2 1 3");
    folder.prints("vxm s 2 0 1 --semiring plus.plus", "place 2: 3 entries\n");
    folder.prints("show s 2", picture);
}

#[test]
fn vxm_transposes_its_sheet_by_transpose_b() {
    let folder = worked_example();
    folder.script("s", "set 2 0 0 1\nset 2 0 2 1\n");
    folder.prints("vxm s 3 2 1 --semiring PLUS.Second --transpose-b", "place 3: 4 entries\n");
    folder.prints("show s 3", "   0  1  2  3\n0  2  9  1  0\n");
}

#[test]
fn ewise_mult_and_ewise_add() {
    let folder = worked_example();
    folder.script("s", "set 3 0 1 1\nset 3 0 2 5\nlay 4 1 4\n");
    folder.prints("eWiseMult s 4 0 3 --op minus", "place 4: 1 entry\n");
    folder.prints("show s 4", "   0   1  2  3\n0  .  19  .  .\n");
    folder.prints("ewise-add s 4 0 3 --op MINUS", "place 4: 4 entries\n");
    folder.prints("show s 4", "    0   1  2   3\n0  10  19  5  40\n");
}

#[test]
fn select_by_each_condition() {
    let folder = worked_example();
    for (options, row) in [
        ("--op valueeq --scalar 20", "empty 20 empty"),
        ("--op valuene --scalar 20", "10 empty 40"),
        ("--op valuelt --scalar 20", "10 empty empty"),
        ("--op VALUELE --scalar 20", "10 20 empty"),
        ("--op valuegt --scalar=20", "empty empty 40"),
        ("--op valuege --scalar 20", "empty 20 40"),
        ("--op tril", "10 empty empty"),
        ("--op tril --scalar 2147483647", "10 20 40"),
        ("--op triu --scalar 1", "empty 20 40"),
    ] {
        folder.accept(&format!("select s 3 0 {options}"));
        let cells = [0, 1, 3].map(|col| folder.accept(&format!("read s 3 0 {col}")).trim().to_string());
        assert_eq!(cells.join(" "), row, "{options}");
    }
}

#[test]
fn assign_into_chosen_cells() {
    let folder = Folder::with_shelf();
    folder.script("s", "lay 0 1 2\nset 0 0 0 7\nlay 1 2 3\nset 1 0 2 2\nset 1 1 0 10\nset 1 1 1 11\nset 1 1 2 12\n");
    folder.prints("assign s 1 0 --rows 1 --cols 2,0", "place 1: 3 entries\n");
    folder.prints("show s 1", "   0   1  2\n0  .   .  2\n1  .  11  7\n");
    folder.prints("assign s 1 0 --rows 1 --cols 1,2 --accum minus", "place 1: 3 entries\n");
    folder.prints("show s 1", "   0  1  2\n0  .  .  2\n1  .  4  7\n");
    folder.script("s", "lay 2 2 3\nset 2 1 1 1\n");
    folder.prints("assign s 1 0 --rows 0 --cols 0..1 --mask 2 --replace", "place 1: 1 entry\n");
    folder.prints("show s 1", "   0  1  2\n0  .  .  .\n1  .  4  .\n");
}

#[test]
fn kronecker_by_minus() {
    let folder = Folder::with_shelf();
    folder.script("s", "lay 0 2 1\nset 0 1 0 9\nlay 1 1 2\nset 1 0 0 4\nset 1 0 1 2\nlay 2 2 2\nlay 3 4 1\n");
    folder.prints("kronecker s 2 0 1 --op minus", "place 2: 2 entries\n");
    folder.prints("show s 2", "   0  1\n0  .  .\n1  5  7\n");
    folder.prints("kronecker s 3 0 1 --op minus --transpose-b", "place 3: 2 entries\n");
    folder.prints("show s 3", "   0\n0  .\n1  .\n2  5\n3  7\n");
}

#[test]
fn reduce_rows_and_all() {
    let folder = Folder::with_shelf();
    folder.script("s", "lay 0 3 2\nset 0 0 0 5\nset 0 0 1 -5\nset 0 2 0 7\nlay 1 1 3\nlay 2 1 2\n");
    folder.prints("reduceRows s 1 0 --monoid plus", "place 1: 2 entries\n");
    folder.prints("show s 1", "   0  1  2\n0  0  .  7\n");
    folder.prints("reduce-rows s 2 0 --monoid MAX --transpose-a", "place 2: 2 entries\n");
    folder.prints("show s 2", "   0   1\n0  7  -5\n");
    folder.prints("reduce s 0 --monoid plus", "7\n");
    folder.prints("reduce s 0 --monoid min", "-5\n");
    folder.script("s", "lay 3 1 1\n");
    for (monoid, identity) in [("plus", "0"), ("times", "1"), ("min", "2147483647"), ("max", "-2147483648")] {
        folder.prints(&format!("reduce s 3 --monoid {monoid}"), &format!("{identity}\n"));
    }
}

#[test]
fn apply_of_each_kind() {
    let folder = worked_example();
    for (options, row) in [
        ("--op abs", "10 20 40"),
        ("--op minus --first 15", "5 -5 -25"),
        ("--op minus --second 15", "-5 5 25"),
        ("--op colindex --scalar 0", "0 1 3"),
        ("--op colindex", "0 1 3"),
        ("--op rowindex --scalar -7", "-7 -7 -7"),
        ("--op=times --second=-2", "-20 -40 -80"),
    ] {
        folder.prints(&format!("apply s 3 0 {options}"), "place 3: 3 entries\n");
        let cells = [0, 1, 3].map(|col| folder.accept(&format!("read s 3 0 {col}")).trim().to_string());
        assert_eq!(cells.join(" "), row, "{options}");
    }
}

/// Rows and columns are counted in the sheet as transposed.
#[test]
fn index_operators_after_transposing() {
    let folder = Folder::with_shelf();
    folder.script("s", "lay 0 3 6\nset 0 2 5 7\nlay 1 6 3\n");
    for (op, value) in [("rowindex", 5), ("colindex", 2), ("diagindex", -3)] {
        folder.prints(&format!("apply s 1 0 --op {op} --transpose-a"), "place 1: 1 entry\n");
        folder.prints("read s 1 5 2", &format!("{value}\n"));
    }
}

#[test]
fn extract_by_lists() {
    let folder = worked_example();
    folder.script("s", "lay 4 3 2\nlay 5 4 3\nlay 6 3 4\n");
    folder.prints("extract s 4 1 --rows 3,0..1 --cols 1,0", "place 4: 5 entries\n");
    folder.prints("show s 4", "   0  1\n0  5  0\n1  3  .\n2  6  9\n");
    folder.prints("extract s 5 1 --rows all --cols ALL", "place 5: 8 entries\n");
    assert_eq!(folder.accept("show s 5"), folder.accept("show s 1"));
    folder.prints("extract s 6 1 --rows all --cols all --transpose-a", "place 6: 8 entries\n");
    folder.prints("show s 6", "   0  1  2  3\n0  .  9  .  0\n1  3  6  3  5\n2  2  .  1  .\n");
}

/// The worked examples P7 to P12.
#[test]
fn write_back_options() {
    for (options, row) in [
        ("--mask 2", ". 2 3 9"),
        ("--mask 2 --replace", ". . . 9"),
        ("--mask 2 --structural", ". 9 3 9"),
        ("--mask 2 --complement", "1 9 . ."),
        ("--mask 2 --accum plus", "1 2 3 9"),
        ("--complement --replace", ". . . ."),
    ] {
        let folder = Folder::with_shelf();
        folder.script(
            "s",
            "lay 0 1 4\nset 0 0 0 1\nset 0 0 1 2\nset 0 0 2 3\nlay 1 1 4\nset 1 0 1 9\nset 1 0 3 9\n\
             lay 2 1 4\nset 2 0 0 1\nset 2 0 1 0\nset 2 0 3 5\n",
        );
        folder.accept(&format!("apply s 0 1 --op identity {options}"));
        let picture = folder.accept("show s 0");
        let cells: Vec<&str> = picture.lines().nth(1).unwrap().split_whitespace().skip(1).collect();
        assert_eq!(cells.join(" "), row, "{options}");
    }
}

#[test]
fn options_stand_anywhere_behind_the_command() {
    let folder = worked_example();
    for line in [
        "MXM s --semiring plus.plus 2 --accum=max 0 1",
        "mxm --semiring plus.plus s 2 0 1",
        "mxm --accum max --semiring=plus.plus s 2 0 1",
        "mxm --semiring plus.plus -- s 2 0 1",
        "mxm s 2 --semiring plus.plus 0 -- 1",
    ] {
        folder.prints(line, "place 2: 3 entries\n");
    }
    assert!(folder.script("s", "mxm --semiring plus.plus 2 -- 0 1\n").ends_with("place 2: 3 entries\n"));
}

#[test]
fn a_file_name_with_hyphens_in_front() {
    let folder = Folder::new();
    folder.prints("new -- --s 100", "--s: 100 words, all places empty\n");
    folder.write("--script", "lay 0 1 1\n");
    folder.prints("run -- --s --script", "> lay 0 1 1\nplace 0: 1 by 1, 0 entries\n");
    folder.prints("show -- --s 0", "   0\n0  .\n");
    folder.prints("new -s 100", "-s: 100 words, all places empty\n");
    assert_eq!(folder.names(), ["--s", "--script", "-s"]);
}

#[test]
fn the_help() {
    let folder = Folder::new();
    let first = folder.accept("help");
    assert!(first.starts_with("ostrubel COMMAND FILE"));
    folder.prints("--help", &first);
    folder.prints("-h", &first);
    folder.prints("help help", &first);
    let none = folder.run("");
    assert_eq!((none.status.code(), text(&none), error_text(&none)), (Some(2), String::new(), first));
    assert!(folder.accept("help mxm").starts_with("ostrubel mxm FILE C A B --semiring"));
    assert_eq!(folder.accept("mxm --help"), folder.accept("help MXM"));
    assert!(folder.accept("help vxm").contains("--transpose-b transposes it"));
    assert!(folder.accept("help extract").contains("A range includes both its ends"));
    for topic in ["options", "operators", "refusals"] {
        folder.accept(&format!("help {topic}"));
    }
    folder.prints("--version", concat!("ostrubel ", env!("CARGO_PKG_VERSION"), "\n"));
}

/// Limits and rules that a user has to find.
#[test]
fn what_the_help_says() {
    let folder = Folder::new();
    for (topic, texts) in [
        (
            "help",
            &[
                "A sheet is a table of up to 1000 rows and 1000 columns, counted from 0;",
                "An entry is a cell that has a value. A sheet has at most 2048 entries.",
                "a new shelf of WORDS words (8 to 16384; 1000 will often do)",
                "merge FILE PLACE SHEET.. merges such files into a place; the larger value stays",
                "All that write a file take --dry-run: they show which cells would change, and save nothing.",
                "3 a file or the output cannot be read or written; the message says whether the shelf was saved.",
            ][..],
        ),
        ("lay", &["ROWS 1 to 1000 COLS 1 to 1000", "A sheet has at most 2048 entries."]),
        ("extract", &["No row and no column is chosen twice.", "A LIST has 1 to 1000 numbers."]),
        ("apply", &["may come in any order, and one of them again: C is the same."]),
        ("mxm", &["plus.times is the ordinary product; min.plus adds the two values and keeps the smallest sum."]),
        ("options", &["Options may stand anywhere behind the command", "--mask 3 and --mask=3 are the same."]),
        (
            "show",
            &[
                "A sheet of more than 60 rows, or one whose picture would be wider than the terminal,",
                "Where the output is no terminal, the width is 120 characters.",
            ],
        ),
        (
            "new",
            &[
                "within a guard of 20 bytes",
                "For more words: ostrubel resize.",
                "Owner, group, permissions, access lists and other extended attributes are kept, or nothing is saved;",
                "write permission in the folder",
                ".ostrubel-NUMBER-NUMBER.new",
                "A second hard link to the file keeps the old words.",
            ],
        ),
    ] {
        let page = folder.accept(&format!("help {topic}"));
        let page = page.split_whitespace().collect::<Vec<_>>().join(" ");
        for text in texts {
            assert!(page.contains(text), "{topic}: {text}");
        }
    }
}

/// As the help about `resize` says.
#[test]
fn a_shelf_gets_more_words_or_fewer() {
    let folder = Folder::with_shelf();
    folder.script("s", "lay 0 2 2\nset 0 0 0 7\n");
    let used = 1000 - free_words(&folder);
    folder.prints("resize s 16384", "s: 16384 words\n");
    assert_eq!(free_words(&folder), 16_384 - used);
    folder.prints(&format!("resize s {used}"), &format!("s: {used} words\n"));
    assert_eq!(free_words(&folder), 0);
    folder.prints("read s 0 0 0", "7\n");
    let few = used - 1;
    let sentence = format!("{used} words are used, and do not fit {few}: drop a sheet, or take more words.");
    assert_eq!(folder.fails(&format!("resize s {few}"), 1), format!("refused (11): {sentence}\n"));
    folder.refuses_12("resize s 16385", "A shelf has 8 to 16384 words, and not 16385.");
    folder.refuses_12("resize s 7", "A shelf has 8 to 16384 words, and not 7.");
}

/// The free words that `list` tells.
fn free_words(folder: &Folder) -> usize {
    let list = folder.accept("list s");
    let words = list.lines().last().unwrap().split(", ").nth(1).unwrap();
    words.strip_suffix(" free").unwrap().parse().unwrap()
}

/// As the help about `show` says.
#[test]
fn a_picture_or_a_list() {
    let folder = Folder::with_shelf();
    folder.script("s", "lay 0 60 1\nlay 1 61 1\nset 1 60 0 5\nlay 2 1 32\nlay 3 1 33\n");
    assert_eq!(folder.accept("show s 0").lines().count(), 61);
    folder.prints("show s 1", "61 by 1, 1 entry\n60 0 5\n");
    let widths: Vec<usize> = folder.accept("show s 2").lines().map(str::len).collect();
    assert_eq!(widths, [119, 119]);
    folder.prints("show s 3", "1 by 33, 0 entries\n");
}

/// To merge place 1 into place 0, as the help about `apply` says.
#[test]
fn merging_keeps_the_larger_value() {
    let folder = Folder::with_shelf();
    folder.script("s", "lay 0 1 4\nset 0 0 0 1\nset 0 0 1 5\nlay 1 1 4\nset 1 0 1 4\nset 1 0 0 2\nset 1 0 3 3\n");
    folder.prints("apply s 0 1 --op identity --accum max", "place 0: 3 entries\n");
    folder.prints("show s 0", "   0  1  2  3\n0  2  5  .  3\n");
}

/// As the help about `apply` says: three late sheets in every order, and one of them again.
#[test]
fn merges_come_in_any_order() {
    let orders = [[1, 2, 3], [1, 3, 2], [2, 1, 3], [2, 3, 1], [3, 1, 2], [3, 2, 1]];
    for [first, second, third] in orders {
        let folder = Folder::with_shelf();
        folder.script("s", "lay 0 1 3\nlay 1 1 3\nset 1 0 0 -5\nset 1 0 2 7\nlay 2 1 3\nset 2 0 0 10\n");
        folder.script("s", "set 2 0 1 -2147483648\nlay 3 1 3\nset 3 0 0 10\nset 3 0 2 -1\n");
        for place in [first, second, third, first] {
            folder.accept(&format!("apply s 0 {place} --op identity --accum max"));
        }
        folder.prints("show s 0", "    0            1  2\n0  10  -2147483648  7\n");
    }
}

/// The example of the help is run as it stands, and shows the picture that stands there.
#[test]
fn the_example_of_the_help() {
    let folder = Folder::new();
    let help = folder.accept("help example");
    let indented: Vec<&str> = help.lines().filter_map(|line| line.strip_prefix("    ")).collect();
    let (lines, picture): (Vec<&str>, Vec<&str>) = indented.iter().partition(|line| line.starts_with("ostrubel "));
    assert_eq!((lines.len(), picture.len()), (9, 5));
    let output = folder.shell(&format!("set -e\n{}", lines.join("\n")));
    assert_eq!((output.status.code(), error_text(&output)), (Some(0), String::new()));
    assert!(text(&output).ends_with(&format!("place 1: 1 entry\n{}\n", picture.join("\n"))), "{}", text(&output));
    assert_eq!(folder.names(), ["demo.shelf"]);
}

/// The examples of the other pages are run too, on a shelf where they make sense.
#[test]
fn the_examples_of_all_pages() {
    let folder = Folder::new();
    let mut lines = vec!["ostrubel new keys.shelf 5000; ostrubel new other.shelf 1000".to_string()];
    folder.write("house.names", "row 2 medicine cupboard\n");
    let pages = "lay set clear read show list drop mxm vxm eWiseMult eWiseAdd apply extract select reduceRows assign \
                 kronecker formula reduce revision doors run export import diff merge copy resize convert names man";
    let shapes = [
        ("mxm", "0 4 4, 1 4 4"),
        ("vxm", "1 1 5, 2 5 3, 3 1 3"),
        ("eWiseMult", "0 5 4, 1 5 4, 2 5 4"),
        ("eWiseAdd", "0 5 4, 1 5 4, 2 5 4"),
        ("apply", "0 5 4, 1 5 4, 2 5 4"),
        ("extract", "0 10 3, 1 7 3"),
        ("doors", "0 2 3, 1 3 2, 2 1 2"),
        ("select", "0 5 4, 2 5 4"),
        ("reduceRows", "0 5 4, 3 1 5"),
        ("export", "0 5 4, 1 5 4"),
        ("merge", "0 5 4, 1 5 4"),
        ("assign", "0 1 4, 1 5 4"),
        ("kronecker", "0 2 3, 1 4 1, 2 8 3"),
        ("formula", "0 4 4"),
    ];
    for name in pages.split(' ') {
        let laid = shapes.iter().filter(|(page, _)| *page == name).flat_map(|(_, shapes)| shapes.split(", "));
        lines.extend(laid.map(|shape| format!("ostrubel lay keys.shelf {shape}")));
        if name == "merge" {
            lines.push("ostrubel export keys.shelf 1 other.sheet".to_string());
        }
        let page = folder.accept(&format!("help {name}"));
        let examples: Vec<String> = page
            .lines()
            .filter(|line| line.starts_with("    ostrubel ") || line.starts_with("    printf "))
            .filter(|line| !line.contains("| man "))
            .map(str::to_string)
            .collect();
        assert!(!examples.is_empty(), "{name}");
        lines.extend(examples);
    }
    let output = folder.shell(&format!("set -e\n{}", lines.join("\n")));
    assert_eq!((output.status.code(), error_text(&output)), (Some(0), String::new()), "{}", text(&output));
}

/// FILE is a name of any bytes, also none that is text.
#[test]
fn a_file_name_that_is_no_text() {
    use std::ffi::OsStr;
    use std::os::unix::ffi::OsStrExt;
    let folder = Folder::new();
    let name = OsStr::from_bytes(b"\xff shelf");
    for words in [&["new", "100"][..], &["lay", "0", "2", "2"], &["show", "0"]] {
        let output = folder.command(OSTRUBEL).arg(words[0]).arg(name).args(&words[1..]).output().unwrap();
        assert_eq!(output.status.code(), Some(0), "{words:?}");
    }
}
