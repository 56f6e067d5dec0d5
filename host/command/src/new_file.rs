//! New files that get another file's name when they are whole.
//!
//! A new file is locked as long as its maker has it open. One that nobody has locked is left over from a command that
//! was killed, and the next command that saves in the folder removes it.

use crate::locked_file::{lock, names_file, open_regular};
use std::ffi::OsStr;
use std::fs::{self, File, OpenOptions};
use std::io::{self, ErrorKind, Write};
use std::os::unix::fs::OpenOptionsExt;
use std::path::{Path, PathBuf};
use std::process;

const PREFIX: &str = ".ostrubel-";
const SUFFIX: &str = ".new";

/// The names that are tried for a new file.
const NEW_FILE_NAMES: u32 = 100;

/// A file whose name is removed unless it is renamed.
pub struct NewFile {
    pub file: File,
    pub path: PathBuf,
    /// Its name is no longer its own.
    renamed: bool,
}

impl NewFile {
    /// With these bytes, which are not synced yet.
    pub fn with_bytes(folder: &Path, mode: u32, bytes: &[u8]) -> io::Result<NewFile> {
        let mut new = NewFile::create(folder, mode)?;
        new.file.write_all(bytes)?;
        Ok(new)
    }

    /// Under a name that nothing in the folder has.
    fn create(folder: &Path, mode: u32) -> io::Result<NewFile> {
        let mut number = 0;
        loop {
            let path = folder.join(format!("{PREFIX}{}-{number}{SUFFIX}", process::id()));
            number += 1;
            match OpenOptions::new().write(true).create_new(true).mode(mode).open(&path) {
                Ok(file) => {
                    let mut new = NewFile { file, path, renamed: false };
                    lock(&new.file)?;
                    if names_file(&new.path, &new.file)? {
                        return Ok(new);
                    }
                    // Before it was locked, another command took it for a leftover.
                    new.renamed = true;
                }
                Err(error) if error.kind() == ErrorKind::AlreadyExists && number < NEW_FILE_NAMES => {}
                Err(error) => return Err(error),
            }
        }
    }

    pub fn rename(mut self, target: &Path) -> io::Result<()> {
        fs::rename(&self.path, target)?;
        self.renamed = true;
        Ok(())
    }
}

impl Drop for NewFile {
    fn drop(&mut self) {
        if !self.renamed {
            // The failure that led here is the one to tell.
            let _ = fs::remove_file(&self.path);
        }
    }
}

/// Removes the new files in a folder that nobody has locked. What cannot be removed stays.
pub fn remove_leftovers(folder: &Path) {
    for entry in fs::read_dir(folder).into_iter().flatten().flatten() {
        let is_file = entry.file_type().is_ok_and(|kind| kind.is_file());
        if is_file && is_new_file(&entry.file_name()) {
            let _ = remove_leftover(&entry.path());
        }
    }
}

fn remove_leftover(path: &Path) -> io::Result<()> {
    let file = open_regular(path, OpenOptions::new().read(true))?;
    if file.try_lock().is_ok() && names_file(path, &file)? {
        fs::remove_file(path)?;
    }
    Ok(())
}

/// Whether the name is one that new files get.
fn is_new_file(name: &OsStr) -> bool {
    let numbers = name.to_str().and_then(|name| name.strip_prefix(PREFIX)?.strip_suffix(SUFFIX)?.split_once('-'));
    let is_number = |text: &str| !text.is_empty() && text.bytes().all(|byte| byte.is_ascii_digit());
    numbers.is_some_and(|(process, number)| is_number(process) && is_number(number))
}

#[cfg(test)]
mod tests {
    use super::*;
    use crate::test_folder::TestFolder;

    #[test]
    fn names_of_new_files() {
        for (name, expected) in [
            (".ostrubel-1-0.new", true),
            (".ostrubel-4194304-99.new", true),
            (".ostrubel-1.new", false),
            (".ostrubel--1.new", false),
            (".ostrubel-1-.new", false),
            (".ostrubel-1-0.newer", false),
            (".ostrubel-a-0.new", false),
            (".ostrubel-1-0-2.new", false),
            ("ostrubel-1-0.new", false),
        ] {
            assert_eq!(is_new_file(OsStr::new(name)), expected, "{name}");
        }
    }

    /// A file that its maker has open stays, and one that is left over goes.
    #[test]
    fn leftovers_go_and_new_files_stay() {
        let folder = TestFolder::new("leftovers");
        fs::write(folder.path(".ostrubel-1-0.new"), "left over").unwrap();
        fs::write(folder.path(".ostrubel-1-0.old"), "another file").unwrap();
        fs::create_dir(folder.path(".ostrubel-2-0.new")).unwrap();
        let new = NewFile::with_bytes(folder.root(), 0o600, b"new").unwrap();
        let own = new.path.file_name().unwrap().to_str().unwrap().to_string();
        remove_leftovers(folder.root());
        let mut names = vec![".ostrubel-1-0.old".to_string(), ".ostrubel-2-0.new".to_string(), own];
        names.sort();
        assert_eq!(folder.names(), names);
        new.rename(&folder.path("s")).unwrap();
        assert_eq!(fs::read(folder.path("s")).unwrap(), b"new");
    }
}
