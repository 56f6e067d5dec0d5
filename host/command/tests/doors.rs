//! Keys behind doors, by the shelf's sheets.

mod common;

use common::Folder;

/// Key 0 is in hand and opens door 1; behind that is key 1, which opens the doors 0 and 1. No key opens door 2.
fn house() -> Folder {
    let folder = Folder::with_shelf();
    folder.script("s", "lay 0 2 3\nset 0 0 1 0\nset 0 1 0 5\nset 0 1 1 0\n");
    folder.script("s", "lay 1 3 2\nset 1 1 1 0\nlay 2 1 2\nset 2 0 0 0\n");
    folder
}

#[test]
fn a_line_for_each_round() {
    let folder = house();
    let before = folder.state("s");
    folder.prints("doors s 0 1 2 0", "round 0: door 1\n1 of 3 doors open\n");
    folder.prints("doors s 0 1 2 5", "round 0: door 1\nround 1: door 0\n2 of 3 doors open\n");
    folder.prints("doors s 0 1 2 1000", "round 0: door 1\nround 1: door 0\n2 of 3 doors open\n");
    assert_eq!(folder.state("s"), before);
    folder.script("s", "set 2 0 1 7\n");
    folder.prints("doors s 0 1 2 5", "round 0: doors 0, 1\n2 of 3 doors open\n");
    folder.script("s", "lay 2 1 2\n");
    folder.prints("doors s 0 1 2 5", "0 of 3 doors open\n");
}

#[test]
fn refusals() {
    let folder = house();
    folder.refuses_12("doors s 0 7 8 5", "There is no place 8 (HAND): places are 0 to 7.");
    folder.refuses("doors s 0 7 6 5", 13, "place 7 (CABINETS), place 6 (HAND)");
    let message = folder.fails("doors s 0 1 2 1001", 1);
    assert_eq!(message, "refused (7): ALLOWANCE is 0 to 1000 rounds, and not 1001.\n");
    assert_eq!(folder.fails("doors s 0 0 2 -1", 1), message.replace("1001", "-1"));
    folder.refuses("doors s 0 0 2 5", 8, "place 0 (LOCKS) is 2 by 3, place 0 (CABINETS) is 2 by 3 and must be 3 by 2");
    folder.refuses("doors s 0 1 1 5", 8, "place 0 (LOCKS) is 2 by 3, place 1 (HAND) is 3 by 2 and must be 1 by 2");
}
