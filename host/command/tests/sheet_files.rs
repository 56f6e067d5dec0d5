//! `export`, `import` and `print`: sheets carried in files of their own.

mod common;

use common::{error_text, text, Folder};

const STRIP: [u32; 14] = [2, 1, 4, 2, 0, 3, 3, 0, 1, 3, 3, 10, 20, 40];
const STRIP_TEXT: &str = "1 4 3\n0 0 10\n0 1 20\n0 3 40\n";

fn bytes(words: &[u32]) -> Vec<u8> {
    words.iter().flat_map(|word| word.to_le_bytes()).collect()
}

/// The strip's file in today's form, when three calls have written into it.
fn strip_file() -> Vec<u8> {
    bytes(&[&[1, 3], &STRIP[..]].concat())
}

/// A folder with a shelf whose place 0 has document 01's strip.
fn with_strip() -> Folder {
    let folder = Folder::with_shelf();
    folder.script("s", "lay 0 1 4\nset 0 0 0 10\nset 0 0 1 20\nset 0 0 3 40\n");
    folder
}

#[test]
fn out_and_in_again() {
    let folder = with_strip();
    folder.prints("export s 0 strip", "strip: 1 by 4, 3 entries\n");
    assert_eq!(folder.bytes("strip"), strip_file());
    folder.prints("print strip", STRIP_TEXT);
    folder.prints("import s 5 strip", "place 5: 1 by 4, 3 entries\n");
    assert_eq!(folder.accept("show s 5"), folder.accept("show s 0"));
    folder.prints("export s 5 strip", "strip: 1 by 4, 3 entries\n");
    assert_eq!(folder.names(), ["s", "strip"]);
}

#[test]
fn through_pipes() {
    let folder = with_strip();
    let output =
        folder.shell("ostrubel export s 0 - | ostrubel import s 1 - && ostrubel export s 1 - | ostrubel print -");
    assert_eq!(
        (text(&output), error_text(&output)),
        (format!("place 1: 1 by 4, 3 entries\n{STRIP_TEXT}"), String::new())
    );
    // a byte at a time
    let size = strip_file().len();
    let slowly =
        format!("i=0; while [ $i -lt {size} ]; do dd bs=1 count=1 skip=$i if=strip status=none; i=$((i + 1)); done");
    let output = folder.shell(&format!("ostrubel export s 0 strip > out && ({slowly}) | ostrubel print -"));
    assert_eq!((text(&output), error_text(&output)), (STRIP_TEXT.to_string(), String::new()));
}

#[test]
fn no_sheet_file_is_refused_with_15() {
    let folder = with_strip();
    let file = bytes(&STRIP);
    let mut other = file.clone();
    other[0] = 3;
    let long = vec![0; 1_000_000];
    for (name, bytes, size) in [
        ("empty", &[][..], "0 bytes"),
        ("one", &file[..1], "1 byte"),
        ("short", &file[..55], "55 bytes"),
        ("word", &file[..52], "52 bytes"),
        ("long", &[&file[..], &[0]].concat(), "57 bytes"),
        ("words", &[&file[..], &[0; 4]].concat(), "60 bytes"),
        ("damaged", &other, "56 bytes"),
        ("zeros", &long, &format!("more than {} bytes", ostrubel::MAX_FILE_BYTES)),
    ] {
        folder.write(name, bytes);
        let sentence =
            format!("{name} is no sheet file, or is damaged ({size}): check the name, or take a sound copy.\n");
        for line in [format!("import s 0 {name}"), format!("print {name}")] {
            assert_eq!(folder.fails(&line, 1), format!("refused (15): {sentence}"), "{line}");
        }
    }
    let message = folder.fails("print nowhere", 3);
    assert!(message.starts_with("ostrubel: nowhere: "), "{message}");
}

#[test]
fn places_and_room() {
    let folder = with_strip();
    folder.accept("export s 0 strip");
    folder.refuses_12("import s 8 strip", "There is no place 8: places are 0 to 7.");
    folder.refuses_12("export s 8 strip", "There is no place 8: places are 0 to 7.");
    folder.refuses("export s 3 strip", 13, "place 3");
    folder.accept("new small 20");
    let output = folder.run("import small 0 strip");
    assert!(error_text(&output).starts_with("refused (11): "), "{}", error_text(&output));
    assert_eq!(folder.words("small"), [0; 80]);
}

#[test]
fn only_a_sheet_file_is_replaced() {
    let folder = with_strip();
    folder.write("note", "keep me");
    let shelf = folder.state("s");
    for name in ["note", "s"] {
        let message = folder.fails(&format!("export s 0 {name}"), 3);
        assert!(message.contains("is there already and is no sheet file, and stays as it is"), "{message}");
    }
    assert_eq!((folder.bytes("note"), folder.state("s")), (b"keep me".to_vec(), shelf));
    assert_eq!(folder.names(), ["note", "s"]);
}

#[test]
fn not_for_scripts() {
    let folder = with_strip();
    folder.write("script", "import 1 strip\n");
    let output = folder.run("run s script");
    assert!(error_text(&output).contains("import is not for scripts"), "{}", error_text(&output));
}
