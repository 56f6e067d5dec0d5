//! How the file is saved: whole or not at all, with its permissions, through links, and by several commands at once.

mod common;

use common::{error_text, text, Folder, OSTRUBEL};
use std::fs::{self, Permissions};
use std::os::unix::fs::{chown, symlink, MetadataExt, PermissionsExt};
use std::os::unix::process::{CommandExt, ExitStatusExt};
use std::process::Stdio;
use std::sync::atomic::{AtomicBool, Ordering};
use std::thread;

/// A shelf `s` with a 9 by 9 sheet in place 0.
fn shelf() -> Folder {
    let folder = Folder::with_shelf();
    folder.accept("lay s 0 9 9");
    folder
}

#[test]
fn a_write_replaces_the_file() {
    let folder = shelf();
    let before = folder.state("s");
    folder.accept("set s 0 1 1 5");
    let after = folder.state("s");
    assert_ne!(after.inode, before.inode);
    assert_ne!(after.bytes, before.bytes);
    assert_eq!(folder.names(), ["s"]);
}

/// A call that is accepted but changes no word does not write the file again. One that writes into a sheet raises its
/// revision.
#[test]
fn a_call_that_changes_nothing_saves_nothing() {
    let folder = shelf();
    folder.accept("set s 0 1 1 5");
    let before = folder.state("s");
    for line in ["drop s 4", "drop s 4 --dry-run", "set s 0 1 1 5 --dry-run"] {
        folder.accept(line);
        assert_eq!(folder.state("s"), before, "{line}");
    }
    for line in ["set s 0 1 1 5", "clear s 0 2 2", "apply s 0 0 --op abs"] {
        let (before, revision) = (folder.state("s"), folder.accept("revision s 0"));
        folder.accept(line);
        assert_ne!(folder.state("s"), before, "{line}");
        assert_ne!(folder.accept("revision s 0"), revision, "{line}");
    }
}

/// No byte of a file may be written (ulimit -f 0), and the writing call says so.
#[test]
fn a_failing_write_leaves_the_old_file() {
    let folder = shelf();
    let before = folder.state("s");
    let output = folder.shell("trap '' XFSZ; ulimit -f 0; exec ostrubel set s 0 1 1 5");
    let message = "ostrubel: s: not saved, and as it was before: File too large (os error 27)\n";
    assert_eq!((output.status.code(), error_text(&output).as_str()), (Some(3), message));
    assert_eq!(folder.state("s"), before);
    assert_eq!(folder.names(), ["s"]);
}

#[test]
fn a_failing_write_leaves_no_new_shelf() {
    let folder = Folder::new();
    let output = folder.shell("trap '' XFSZ; ulimit -f 0; exec ostrubel new s 100");
    assert_eq!(
        (output.status.code(), error_text(&output).as_str()),
        (Some(3), "ostrubel: s: File too large (os error 27)\n")
    );
    assert_eq!(folder.names(), Vec::<String>::new());
}

/// Killed in the middle of a save, a command leaves the old file, and the next command works.
#[test]
fn a_crash_leaves_the_old_file() {
    let folder = shelf();
    let before = folder.state("s");
    let output = folder.shell("ulimit -c 0; ulimit -f 0; exec ostrubel set s 0 1 1 5");
    assert_eq!((output.status.signal(), text(&output)), (Some(25), String::new()));
    assert_eq!(folder.state("s"), before);
    folder.prints("set s 0 1 1 5", "place 0: 1 entry\n");
}

/// Where something has the new file's name, the next name is taken. The shell's number stays with `exec`.
#[test]
fn names_of_new_files_that_are_taken() {
    let folder = shelf();
    let output = folder.shell("mkdir .ostrubel-$$-0.new; touch .ostrubel-$$-1.new; exec ostrubel set s 0 1 1 5");
    assert_eq!((output.status.code(), text(&output).as_str()), (Some(0), "place 0: 1 entry\n"));
    // The file was left over, and has gone; the folder stays.
    assert_eq!(folder.names().len(), 2);

    let before = folder.state("s");
    let all_taken =
        "i=0; while [ $i -lt 100 ]; do mkdir .ostrubel-$$-$i.new; i=$((i+1)); done; exec ostrubel set s 0 1 1 6";
    let output = folder.shell(all_taken);
    let message = "ostrubel: s: not saved, and as it was before: File exists (os error 17)\n";
    assert_eq!((output.status.code(), error_text(&output).as_str()), (Some(3), message));
    assert_eq!(folder.state("s"), before);
    assert_eq!(folder.names().len(), 102);
}

#[test]
fn permissions_and_owner_are_kept() {
    let folder = shelf();
    for mode in [0o600, 0o640, 0o664] {
        fs::set_permissions(folder.path("s"), Permissions::from_mode(mode)).unwrap();
        folder.accept(&format!("set s 0 1 1 {mode}"));
        assert_eq!(fs::metadata(folder.path("s")).unwrap().mode() & 0o7777, mode);
    }
    // Only root may give a file away.
    if chown(folder.path("s"), Some(12_345), Some(12_346)).is_ok() {
        folder.accept("set s 0 1 1 7");
        let about = fs::metadata(folder.path("s")).unwrap();
        assert_eq!((about.uid(), about.gid(), about.mode() & 0o7777), (12_345, 12_346, 0o664));
    }
}

/// Who may write a file, but not give a new one to its owner or its group, saves nothing.
#[test]
fn an_owner_that_cannot_be_kept() {
    let folder = shelf();
    fs::set_permissions(folder.path("."), Permissions::from_mode(0o777)).unwrap();
    for (user, group, mode) in [(12_345, 12_346, 0o666), (12_347, 12_346, 0o666), (12_345, 12_348, 0o766)] {
        fs::set_permissions(folder.path("s"), Permissions::from_mode(mode)).unwrap();
        if chown(folder.path("s"), Some(user), Some(group)).is_err() {
            eprintln!("not tested: only root may give a file away");
            return;
        }
        let before = folder.state("s");
        let mut command = folder.command(OSTRUBEL);
        let output = command.args(["set", "s", "0", "1", "1", "5"]).uid(12_347).gid(12_348).output().unwrap();
        let message = format!(
            "ostrubel: s: not saved, and as it was before: the file's owner and group ({user}, {group}) cannot be \
             kept: Operation not permitted (os error 1)\n"
        );
        assert_eq!((output.status.code(), error_text(&output)), (Some(3), message));
        assert_eq!((folder.state("s"), folder.names()), (before, vec!["s".to_string()]));
    }
}

/// A file that its group shares passes to the member who saves it.
#[test]
fn a_group_s_file() {
    let folder = shelf();
    fs::set_permissions(folder.path("."), Permissions::from_mode(0o777)).unwrap();
    fs::set_permissions(folder.path("s"), Permissions::from_mode(0o660)).unwrap();
    if chown(folder.path("s"), Some(12_345), Some(12_348)).is_err() {
        eprintln!("not tested: only root may give a file away");
        return;
    }
    let mut command = folder.command(OSTRUBEL);
    let output = command.args(["set", "s", "0", "1", "1", "5"]).uid(12_347).gid(12_348).output().unwrap();
    assert_eq!((output.status.code(), error_text(&output).as_str()), (Some(0), ""));
    let about = fs::metadata(folder.path("s")).unwrap();
    assert_eq!((about.uid(), about.gid(), about.mode() & 0o7777), (12_347, 12_348, 0o660));
}

#[test]
fn a_symbolic_link_is_followed() {
    let folder = Folder::new();
    fs::create_dir(folder.path("far")).unwrap();
    folder.accept("new far/s 100");
    symlink("far/s", folder.path("link")).unwrap();
    symlink("link", folder.path("link2")).unwrap();
    folder.accept("lay link2 0 2 2");
    folder.accept("set link 0 0 0 5");
    folder.prints("read far/s 0 0 0", "5\n");
    assert!(
        folder.path("link").is_symlink() && folder.path("link2").is_symlink() && !folder.path("far/s").is_symlink()
    );
    assert_eq!(folder.names(), ["far", "link", "link2"]);
    assert_eq!(fs::read_dir(folder.path("far")).unwrap().count(), 1);
}

#[test]
fn a_second_hard_link_keeps_the_old_words() {
    let folder = shelf();
    fs::hard_link(folder.path("s"), folder.path("other")).unwrap();
    folder.accept("set s 0 1 1 5");
    folder.prints("read other 0 1 1", "empty\n");
    folder.prints("read s 0 1 1", "5\n");
}

#[test]
fn a_file_with_the_longest_name() {
    let folder = Folder::new();
    let name = "n".repeat(255);
    folder.accept(&format!("new {name} 100"));
    folder.accept(&format!("lay {name} 0 2 2"));
    assert_eq!(folder.names(), [name]);
}

/// Eight processes set cells of their own at once: all are there at the end, and whoever reads meanwhile sees a shelf.
#[test]
fn concurrent_sets_are_all_there() {
    const WRITERS: usize = 8;
    const CELLS: usize = 6;
    let folder = shelf();
    symlink("s", folder.path("link")).unwrap();
    let done = AtomicBool::new(false);
    thread::scope(|scope| {
        let writers: Vec<_> = (0..WRITERS)
            .map(|row| {
                let folder = &folder;
                let name = if row % 2 == 0 { "s" } else { "link" };
                scope.spawn(move || {
                    (0..CELLS).for_each(|col| set_patiently(folder, &format!("set {name} 0 {row} {col} 1")))
                })
            })
            .collect();
        let reader = scope.spawn(|| {
            while !done.load(Ordering::Relaxed) {
                folder.accept("list s");
            }
        });
        let written = writers.into_iter().map(|writer| writer.join()).collect::<Vec<_>>();
        done.store(true, Ordering::Relaxed);
        reader.join().unwrap();
        assert!(written.iter().all(Result::is_ok));
    });
    folder.prints("list s", &list_with(WRITERS * CELLS));
    assert_eq!(folder.names(), ["link", "s"]);
}

/// Runs a command that has to be accepted. On a busy machine it may say that it waits.
fn set_patiently(folder: &Folder, line: &str) {
    let output = folder.run(line);
    let message = error_text(&output);
    assert!(output.status.success(), "{line}: {message}");
    assert!(message.lines().all(|line| line.contains(": waiting for another command that has it")), "{message}");
}

fn list_with(entries: usize) -> String {
    let words = 9 + 2 * entries + 9;
    let empty: String = (1..8).map(|place| format!("place {place}: empty\n")).collect();
    let (used, free) = (8 + words, 1000 - 8 - words);
    let first = format!("place 0: 9 by 9, {entries} entries, {words} words, revision {entries}\n");
    format!("{first}{empty}words: {used} used, {free} free, 1000 in all\n")
}

/// Several `new` at once: one makes the shelf, the others are turned away.
#[test]
fn concurrent_news_make_one_shelf() {
    let folder = Folder::new();
    let outputs = thread::scope(|scope| {
        let runs: Vec<_> = (0..8)
            .map(|number| {
                scope.spawn({
                    let folder = &folder;
                    move || folder.run(&format!("new s {}", 100 + number))
                })
            })
            .collect();
        runs.into_iter().map(|run| run.join().unwrap()).collect::<Vec<_>>()
    });
    let made: Vec<usize> = (0..8).filter(|number| outputs[*number].status.success()).collect();
    assert_eq!(made.len(), 1);
    assert_eq!(folder.words("s").len(), 4 * (100 + made[0]));
    assert!(outputs.iter().all(|output| [Some(0), Some(3)].contains(&output.status.code())));
}

/// A command waits while another program has the lock.
#[test]
fn a_write_waits_for_the_lock() {
    let folder = shelf();
    let held = fs::File::open(folder.path("s")).unwrap();
    held.lock().unwrap();
    let mut command = folder.command(OSTRUBEL);
    let mut waiting = command.args(["set", "s", "0", "0", "0", "5"]).stdout(Stdio::null()).spawn().unwrap();
    folder.prints("read s 0 0 0", "empty\n");
    thread::sleep(std::time::Duration::from_millis(200));
    assert!(waiting.try_wait().unwrap().is_none());
    drop(held);
    assert!(waiting.wait().unwrap().success());
    folder.prints("read s 0 0 0", "5\n");
}

/// A file that may not be written is not replaced either. Root may write any file: its permissions stay.
#[test]
fn a_read_only_file_is_kept() {
    let folder = shelf();
    fs::set_permissions(folder.path("s"), Permissions::from_mode(0o444)).unwrap();
    if fs::OpenOptions::new().write(true).open(folder.path("s")).is_err() {
        assert_eq!(folder.fails("set s 0 1 1 5", 3), "ostrubel: s: Permission denied (os error 13)\n");
    } else {
        folder.accept("set s 0 1 1 5");
    }
    assert_eq!(fs::metadata(folder.path("s")).unwrap().mode() & 0o7777, 0o444);
    folder.accept("list s");
}

/// A new shelf is there whole or not at all: whoever reads it meanwhile finds a shelf or no file.
#[test]
fn a_new_shelf_is_there_whole() {
    let folder = Folder::new();
    for number in 0..40 {
        let done = AtomicBool::new(false);
        thread::scope(|scope| {
            let reader = scope.spawn(|| {
                while !done.load(Ordering::Relaxed) {
                    let output = folder.run(&format!("list s{number}"));
                    assert!([Some(0), Some(3)].contains(&output.status.code()), "{}", error_text(&output));
                }
            });
            let made = folder.run(&format!("new s{number} 16384"));
            done.store(true, Ordering::Relaxed);
            reader.join().unwrap();
            assert!(made.status.success());
        });
    }
    assert_eq!(folder.names().len(), 40);
}

/// A new shelf has the permissions of any new file.
#[test]
fn permissions_of_a_new_shelf() {
    let folder = Folder::new();
    assert!(folder.shell("umask 027; ostrubel new s 100").status.success());
    assert_eq!(fs::metadata(folder.path("s")).unwrap().mode() & 0o7777, 0o640);
}

/// The lock is given back before anything is printed.
#[test]
fn a_reader_of_the_output_may_write_the_shelf() {
    let folder = shelf();
    folder.write("script", format!("set 0 0 0 1\n{}", "show 0\n".repeat(2000)));
    let line = "timeout 20 ostrubel run s script | (read line; timeout 10 ostrubel set s 0 0 0 2; cat | tail -n 1)";
    let output = folder.shell(line);
    assert_eq!((output.status.code(), error_text(&output)), (Some(0), String::new()));
    assert_eq!(text(&output), "place 0: 1 entry\n8  .  .  .  .  .  .  .  .  .\n");
    folder.prints("read s 0 0 0", "2\n");
}
