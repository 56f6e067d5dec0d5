//! A folder for a unit test.

use std::fs;
use std::path::{Path, PathBuf};
use std::process;

/// A folder of the test's own, removed at its end.
pub struct TestFolder(PathBuf);

impl TestFolder {
    pub fn new(name: &str) -> TestFolder {
        let folder = std::env::temp_dir().join(format!("ostrubel-{}-{name}", process::id()));
        fs::create_dir_all(&folder).unwrap();
        TestFolder(folder)
    }

    pub fn root(&self) -> &Path {
        &self.0
    }

    pub fn path(&self, name: &str) -> PathBuf {
        self.0.join(name)
    }

    pub fn names(&self) -> Vec<String> {
        let entries = fs::read_dir(&self.0).unwrap();
        let mut names: Vec<_> = entries.map(|entry| entry.unwrap().file_name().into_string().unwrap()).collect();
        names.sort();
        names
    }
}

impl Drop for TestFolder {
    fn drop(&mut self) {
        let _ = fs::remove_dir_all(&self.0);
    }
}
