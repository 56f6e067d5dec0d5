//! Formulas over the shelf's sheets.

mod common;

use common::Folder;

/// Places 0 to 2 have 2, 3 and 5 in a sheet of one cell each, and place 3 a sheet of another shape.
fn numbers() -> Folder {
    let folder = Folder::with_shelf();
    folder.script("s", "lay 0 1 1\nset 0 0 0 2\nlay 1 1 1\nset 1 0 0 3\nlay 2 1 1\nset 2 0 0 5\nlay 3 1 2\n");
    folder
}

#[test]
fn products_before_sums_and_from_left_to_right() {
    let folder = numbers();
    for (text, semiring, value) in [
        ("0+1*2", "plus.times", "17"),
        ("(0+1)*2", "plus.times", "25"),
        ("2*1*0", "plus.minus", "0"),
        ("2*(1*0)", "plus.minus", "4"),
        ("0+1", "max.times", "3"),
        ("(((1)))", "plus.times", "3"),
    ] {
        folder.prints(&format!("formula s 7 {text} --semiring {semiring}"), "place 7: 1 entry\n");
        folder.prints("read s 7 0 0", &format!("{value}\n"));
    }
    // the target is read before it is written
    folder.accept("formula s 0 0*0+0 --semiring plus.times");
    folder.prints("read s 0 0 0", "6\n");
}

#[test]
fn refusals() {
    let folder = numbers();
    folder.refuses_12("formula s 8 0 --semiring plus.times", "There is no place 8 (TARGET): places are 0 to 7.");
    folder.refuses("formula s 7 0+8 --semiring plus.times", 14, "after \"0+\" '8' cannot stand there");
    folder.refuses("formula s 7 0+ --semiring plus.times", 14, "after \"0+\" the text ends too early");
    folder.refuses("formula s 7 (((( --semiring plus.times", 14, "after \"(((\" '(' cannot stand there");
    folder.refuses("formula s 7 0+6*5*6 --semiring plus.times", 13, "place 5, place 6");
    assert!(folder.fails("formula s 7 0+3 --semiring plus.times", 1).starts_with("refused (8): "));
    assert!(folder.fails("formula s 7 3*0 --semiring plus.times", 1).starts_with("refused (8): "));
}
