//! A folder for each test, and the command run in it.

#![allow(dead_code)] // Each test file uses a part of this.

use std::fs;
use std::os::unix::fs::MetadataExt;
use std::path::{Path, PathBuf};
use std::process::{Command, Output};
use std::sync::atomic::{AtomicU32, Ordering};

pub const OSTRUBEL: &str = env!("CARGO_BIN_EXE_ostrubel");

/// A folder of the test's own, removed at its end.
pub struct Folder {
    path: PathBuf,
}

/// What a file is: where its bytes are, and the bytes.
#[derive(Debug, PartialEq, Eq)]
pub struct FileState {
    pub inode: u64,
    pub bytes: Vec<u8>,
}

impl Folder {
    pub fn new() -> Folder {
        static NUMBER: AtomicU32 = AtomicU32::new(0);
        let number = NUMBER.fetch_add(1, Ordering::Relaxed);
        let path = Path::new(env!("CARGO_TARGET_TMPDIR")).join(format!("{}-{number}", std::process::id()));
        fs::create_dir_all(&path).unwrap();
        Folder { path }
    }

    /// A folder with a shelf `s` of 1000 words.
    pub fn with_shelf() -> Folder {
        let folder = Folder::new();
        folder.accept("new s 1000");
        folder
    }

    pub fn path(&self, name: &str) -> PathBuf {
        self.path.join(name)
    }

    pub fn write(&self, name: &str, bytes: impl AsRef<[u8]>) {
        fs::write(self.path(name), bytes).unwrap();
    }

    pub fn bytes(&self, name: &str) -> Vec<u8> {
        fs::read(self.path(name)).unwrap()
    }

    /// The bytes of a shelf's words, within a guard that is as it should be.
    pub fn words(&self, name: &str) -> Vec<u8> {
        let bytes = self.bytes(name);
        let words = bytes[16..bytes.len() - 4].to_vec();
        assert_eq!(bytes, guarded(&words), "{name}");
        words
    }

    pub fn state(&self, name: &str) -> FileState {
        FileState { inode: fs::metadata(self.path(name)).unwrap().ino(), bytes: self.bytes(name) }
    }

    /// The names of all files, in order.
    pub fn names(&self) -> Vec<String> {
        let entries = fs::read_dir(&self.path).unwrap();
        let mut names: Vec<String> = entries.map(|entry| entry.unwrap().file_name().into_string().unwrap()).collect();
        names.sort();
        names
    }

    pub fn command(&self, program: &str) -> Command {
        let mut command = Command::new(program);
        command.current_dir(&self.path);
        command
    }

    /// Runs the command with words that have no blanks in them.
    pub fn run(&self, line: &str) -> Output {
        self.command(OSTRUBEL).args(line.split_whitespace()).output().unwrap()
    }

    /// Runs a line of the shell, where `ostrubel` is the command.
    pub fn shell(&self, line: &str) -> Output {
        let folder = Path::new(OSTRUBEL).parent().unwrap().to_str().unwrap();
        let path = format!("{folder}:{}", std::env::var("PATH").unwrap());
        self.command("sh").args(["-c", line]).env("PATH", path).output().unwrap()
    }

    /// Runs the command, which has to be accepted and to say nothing on standard error. Gives what it prints.
    pub fn accept(&self, line: &str) -> String {
        let output = self.run(line);
        assert_eq!((output.status.code(), error_text(&output)), (Some(0), String::new()), "{line}");
        text(&output)
    }

    /// Runs the command, which has to print this.
    pub fn prints(&self, line: &str, expected: &str) {
        assert_eq!(self.accept(line), expected, "{line}");
    }

    /// Runs lines of a script, which have to be accepted.
    pub fn script(&self, shelf: &str, lines: &str) -> String {
        self.write("script", lines);
        let printed = self.accept(&format!("run {shelf} script"));
        fs::remove_file(self.path("script")).unwrap();
        printed
    }

    /// Runs the command, which has to fail with this status and one line on standard error, and to leave the shelf `s`
    /// as it was, the very same file. Gives the line.
    pub fn fails(&self, line: &str, status: i32) -> String {
        let before = self.state("s");
        let output = self.run(line);
        let message = error_text(&output);
        assert_eq!((output.status.code(), text(&output)), (Some(status), String::new()), "{line}: {message}");
        assert_eq!(message.lines().count(), 1, "{line}: {message}");
        assert_eq!(self.state("s"), before, "{line}");
        message
    }

    /// Runs the command, which has to be refused by 12 with this sentence.
    pub fn refuses_12(&self, line: &str, sentence: &str) {
        assert_eq!(self.fails(line, 1), format!("refused (12): {sentence}\n"), "{line}");
    }

    /// Runs the command, which has to be refused by this number, with this about its arguments.
    pub fn refuses(&self, line: &str, number: u32, about: &str) {
        let message = self.fails(line, 1);
        assert!(message.starts_with(&format!("refused ({number}): ")), "{line}: {message}");
        assert!(message.ends_with(&format!(". ({about})\n")), "{line}: {message}");
    }
}

impl Drop for Folder {
    fn drop(&mut self) {
        let _ = fs::remove_dir_all(&self.path);
    }
}

/// The bytes of a shelf's file, by the bytes of its words, within a guard of today's version.
pub fn guarded(words: &[u8]) -> Vec<u8> {
    guarded_as(2, words)
}

pub fn guarded_as(version: u32, words: &[u8]) -> Vec<u8> {
    let count = (words.len() / 4) as u32;
    let mut bytes = [b"OSTRUBEL", &version.to_le_bytes()[..], &count.to_le_bytes(), words].concat();
    bytes.extend(crc32(&bytes).to_le_bytes());
    bytes
}

/// Bit by bit, as the polynomial says.
fn crc32(bytes: &[u8]) -> u32 {
    let bits = bytes.iter().flat_map(|byte| (0..8).map(move |bit| u32::from(byte >> bit & 1)));
    !bits.fold(u32::MAX, |rest, bit| (rest >> 1) ^ (((rest ^ bit) & 1) * 0xEDB8_8320))
}

pub fn text(output: &Output) -> String {
    String::from_utf8(output.stdout.clone()).unwrap()
}

pub fn error_text(output: &Output) -> String {
    String::from_utf8(output.stderr.clone()).unwrap()
}
