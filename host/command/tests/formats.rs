//! Sheets as CSV, Matrix Market, JSON, SVG and HTML, and with names.

mod common;

use common::{error_text, text, Folder};

const NAMES: &str = "# The house\nrow 2 medicine cupboard\ncolumn 1 Anna\nplace 0 today's reports\n";

/// A shelf with a sheet of two entries, and a file of names.
fn house() -> Folder {
    let folder = Folder::with_shelf();
    folder.script("s", "lay 0 3 2\nset 0 0 0 -5\nset 0 2 1 14053\n");
    folder.write("names", NAMES);
    folder
}

#[test]
fn csv_and_matrix_market_out_and_in_again() {
    let folder = house();
    let files = [
        ("a.csv", "", "-5,\r\n,\r\n,14053\r\n"),
        ("b.mtx", "", "%%MatrixMarket matrix coordinate integer general\n3 2 2\n1 1 -5\n3 2 14053\n"),
        ("c", " --format csv", "-5,\r\n,\r\n,14053\r\n"),
        ("d.csv", " --names names", ",0,Anna\r\n0,-5,\r\n1,,\r\nmedicine cupboard,,14053\r\n"),
    ];
    for (name, options, bytes) in files {
        folder.prints(&format!("export s 0 {name}{options}"), &format!("{name}: 3 by 2, 2 entries\n"));
        assert_eq!(String::from_utf8(folder.bytes(name)).unwrap(), bytes, "{name}");
        folder.prints(&format!("import s 1 {name}{options}"), "place 1: 3 by 2, 2 entries\n");
        folder.prints("diff s 0 1", "no cell differs\n");
        folder.prints(&format!("merge s 1 {name}{options}"), &format!("{name}: 0 cells changed\nplace 1: 2 entries\n"));
        folder.accept(&format!("export s 0 {name}{options}"));
    }
    let output = folder.shell("ostrubel export s 0 - --format mtx | ostrubel import s 4 - --format mtx");
    assert_eq!((text(&output).as_str(), error_text(&output).as_str()), ("place 4: 3 by 2, 2 entries\n", ""));
}

/// What is written with names is read with them as the same sheet, or is not written.
#[test]
fn names_that_are_no_heads() {
    let folder = house();
    for (names, head, what) in
        [("row 0 1\n", "1", "row"), ("row 0 a\nrow 1 a\n", "a", "row"), ("column 9 0\n", "0", "column")]
    {
        folder.write("other", names);
        let message = folder.fails("export s 0 a.csv --names other", 3);
        let reason = format!("{head:?} would stand for more than one {what}; nothing was written");
        assert_eq!(message, format!("ostrubel: a CSV file cannot have these names: {reason}\n"));
        assert_eq!(folder.fails("export s 0 a.csv --names other --dry-run", 3), message);
        assert!(!folder.names().contains(&"a.csv".to_string()));
        folder.accept("export s 0 - --format mtx --names other");
    }
    folder.write("other", "row 0 one\nrow 1 +1\nrow 2 0.5\ncolumn 1 1\n");
    folder.accept("export s 0 a.csv --names other");
    folder.accept("import s 1 a.csv --names other");
    folder.prints("diff s 0 1", "no cell differs\n");
}

/// One's own table is replaced, whether it has names or not, and whichever they are.
#[test]
fn tables_with_and_without_names() {
    let folder = house();
    folder.write("other", "row 0 kitchen\ncolumn 0 Bert\n");
    for options in ["", " --names names", " --names other", "", " --names names"] {
        folder.accept(&format!("export s 0 a.csv{options}"));
        folder.accept(&format!("import s 1 a.csv{options}"));
        folder.prints("diff s 0 1", "no cell differs\n");
    }
    for text in ["a,b\n1,2\n", ",Anna\nhall,red\n", ""] {
        folder.write("b.csv", text);
        assert!(folder.fails("export s 0 b.csv", 3).contains("is no CSV file"), "{text}");
    }
}

/// Lines and commas without end are not kept.
#[test]
fn a_table_past_the_limits() {
    let folder = house();
    for sign in ["\n", ","] {
        folder.write("long.csv", sign.repeat(1 << 24));
        let output = folder.shell("ulimit -v 400000; ostrubel import s 1 long.csv");
        let message = "ostrubel: long.csv is no CSV file: a sheet has 1 to 1000 rows and 1 to 1000 columns\n";
        assert_eq!((output.status.code(), error_text(&output).as_str()), (Some(3), message));
    }
}

/// A file of another kind is neither read nor replaced.
#[test]
fn files_of_other_formats() {
    let folder = house();
    folder.write("bad.csv", "1,x\n");
    folder.write("note.mtx", "a note\n");
    let message = folder.fails("import s 1 bad.csv", 3);
    assert_eq!(message, "ostrubel: bad.csv is no CSV file: line 1: \"x\" is no whole number of 32 bits\n");
    let message = folder.fails("merge s 0 note.mtx", 3);
    assert!(message.starts_with("ostrubel: note.mtx is no Matrix Market file: "), "{message}");
    let message = folder.fails("export s 0 note.mtx", 3);
    assert!(message.ends_with("is there already and is no Matrix Market file, and stays as it is\n"), "{message}");
    assert_eq!(folder.bytes("note.mtx"), b"a note\n");
    let message = folder.fails("export s 0 x --format xls", 2);
    assert!(message.contains("no format \"xls\": there are sheet, csv, mtx"), "{message}");
}

#[test]
fn json() {
    let folder = house();
    folder.prints("read s 0 2 1 --json", "{\"place\":0,\"row\":2,\"column\":1,\"value\":14053}\n");
    folder.prints(
        "read s 0 1 1 --json --position",
        "{\"place\":0,\"row\":1,\"column\":1,\"value\":null,\"position\":1}\n",
    );
    let named = folder.accept("read s 0 2 1 --json --names names");
    assert!(named.contains("\"row_name\":\"medicine cupboard\",\"column_name\":\"Anna\",\"value\":14053"), "{named}");
    // Another program reads all of it.
    for (line, value) in [
        (
            "show s 0 --json",
            "[(e['row'], e['column'], e['value']) for e in j['entries']] == [(0, 0, -5), (2, 1, 14053)]",
        ),
        ("show s 0 --json", "(j['place'], j['rows'], j['columns'], j['row_names']) == (0, 3, 2, {})"),
        (
            "show s 0 --json --names names",
            "(j['name'], j['row_names']) == (\"today's reports\", {'2': 'medicine cupboard'})",
        ),
        ("list s --json", "[(p['place'], p['rows'], p['entries']) for p in j['places']] == [(0, 3, 2)]"),
        ("list s --json", "j['words']['used'] + j['words']['free'] == j['words']['all'] == 1000"),
    ] {
        let check = format!("import json, sys; j = json.load(sys.stdin); assert {value}, j");
        folder.write("check.py", check);
        let output = folder.shell(&format!("ostrubel {line} | python3 check.py"));
        assert_eq!((output.status.code(), error_text(&output)), (Some(0), String::new()), "{line}");
    }
}

#[test]
fn pictures_in_files() {
    let folder = house();
    let printed = folder.accept("show s 0 --svg a.svg --html a.html --names names");
    assert_eq!(printed, "a.svg: written\na.html: written\n");
    let (svg, html) = (folder.bytes("a.svg"), folder.bytes("a.html"));
    for page in [&svg, &html] {
        let page = std::str::from_utf8(page).unwrap();
        assert!(
            page.contains("medicine cupboard")
                && page.contains(">14053<")
                && page.contains("s, place 0 (today's reports)")
        );
    }
    folder.write("check.py", "import sys, xml.dom.minidom as m; m.parse(sys.argv[1])");
    assert!(folder.shell("python3 check.py a.svg").status.success());
    folder.accept("show s 0 --svg a.svg");
    assert_ne!(folder.bytes("a.svg"), svg);
    folder.write("note", "keep me");
    let message = folder.fails("show s 0 --html note", 3);
    assert_eq!(message, "ostrubel: note: is there already and is no picture of a sheet, and stays as it is\n");
    assert!(folder.fails("show s 0 --svg s", 3).contains("is no picture of a sheet"));
    assert!(folder.accept("show s 0 --svg -").starts_with("<svg "));
    assert!(folder.fails("show s 0 --svg x --json", 2).contains("one of them"));
}

/// A picture or a page of another program stays, though it begins as many do.
#[test]
fn pictures_of_others_stay() {
    let folder = house();
    let svg = "<svg xmlns=\"http://www.w3.org/2000/svg\" width=\"9\" height=\"9\"></svg>\n";
    let html = "<!doctype html>\n<html lang=\"en\">\n<head>\n<title>a page</title>\n</head>\n</html>\n";
    for (option, text) in [("--svg", svg), ("--html", html)] {
        folder.write("other", text);
        let message = folder.fails(&format!("show s 0 {option} other"), 3);
        assert_eq!(message, "ostrubel: other: is there already and is no picture of a sheet, and stays as it is\n");
        assert_eq!(folder.bytes("other"), text.as_bytes());
        folder.accept(&format!("show s 0 {option} own"));
        folder.accept(&format!("show s 0 {option} own"));
        std::fs::remove_file(folder.path("own")).unwrap();
    }
}

#[test]
fn names_for_a_treasurer() {
    let folder = house();
    let picture = "                    0   Anna\n                0  -5      .\n                1   .      .\n\
                   medicine cupboard   .  14053\n";
    folder.prints("show s 0 --names names", picture);
    assert!(folder.accept("list s --names names").starts_with("place 0 (today's reports): 3 by 2, 2 entries, "));
    folder.write("script", "show 0\n");
    folder.prints("run s script --names names", &format!("> show 0\n{picture}"));
    folder.write("bad", "row 1 a\nrow x b\n");
    assert_eq!(folder.fails("show s 0 --names bad", 3), "ostrubel: bad: line 2: the number of a row is 0 to 999\n");
    assert!(folder.fails("show s 0 --names nowhere", 3).starts_with("ostrubel: nowhere: "));
    folder.write("bad", "row 1 a\u{61c}b\n");
    assert!(folder.fails("show s 0 --names bad", 3).ends_with("line 1: a name has no control characters\n"));
    folder.write("wide", "row 2 薬箱\ncolumn 1 鍵\n");
    folder.prints("show s 0 --names wide", "       0     鍵\n   0  -5      .\n   1   .      .\n薬箱   .  14053\n");
    folder.write("script", "show 0 --names names\n");
    assert!(error_text(&folder.run("run s script")).contains("--names is not for a line of a script"));
}

/// A pipe has its names only once. Without them the second sheet's row 2, by its name, would be no row, or another.
#[test]
fn names_from_a_pipe() {
    let folder = house();
    folder.write("a.csv", ",0,1\r\n0,1,\r\n2,,\r\n1,,\r\n");
    folder.write("b.csv", ",0,1\r\n0,1,\r\n2,,9\r\n1,,\r\n");
    folder.write("turned", "row 0 1\nrow 1 2\nrow 2 0\n");
    folder.script("s", "lay 1 3 2\nlay 2 3 2\n");
    folder.accept("merge s 1 a.csv b.csv --names turned");
    for names in ["-", "/dev/stdin"] {
        folder.accept("lay s 2 3 2");
        let output = folder.shell(&format!("cat turned | ostrubel merge s 2 a.csv b.csv --names {names}"));
        assert_eq!((output.status.code(), error_text(&output)), (Some(0), String::new()));
        folder.prints("diff s 1 2", "no cell differs\n");
    }
    let shown = folder.shell("cat names | ostrubel set s 0 2 1 3 --dry-run --names -");
    assert!(text(&shown).contains("medicine cupboard, Anna: 14053 -> 3"), "{}", text(&shown));
    for line in ["import s 1 - --names - --format csv", "merge s 1 a.csv - --names -", "run s - --names -"] {
        let message = folder.fails(line, 2);
        assert!(message.contains("standard input, which is -, can be read only once"), "{message}");
    }
}
