//! Systems other than Linux: extended attributes are not looked at, and a closed standard output is not told.

use std::ffi::{CStr, CString};
use std::fs::File;
use std::io;

pub fn attributes(_: &File) -> io::Result<Vec<(CString, Vec<u8>)>> {
    Ok(Vec::new())
}

pub fn set_attribute(_: &File, _: &CStr, _: &[u8]) -> io::Result<()> {
    Err(io::ErrorKind::Unsupported.into())
}

pub fn remove_attribute(_: &File, _: &CStr) -> io::Result<()> {
    Err(io::ErrorKind::Unsupported.into())
}

pub fn output_fault() -> Option<&'static str> {
    None
}
