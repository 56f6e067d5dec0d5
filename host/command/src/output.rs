//! What a command prints. It is collected in memory and written at the end, when the shelf is saved and no lock is
//! held: whoever reads it may run another command on the same shelf.

use crate::system;
use crate::text::shown_lines;
use std::io::{self, ErrorKind, Write};

pub struct Output {
    bytes: Vec<u8>,
}

impl Output {
    pub fn new() -> Output {
        Output { bytes: Vec::new() }
    }

    /// Adds the text, whose control characters are written out, and ends its last line.
    pub fn print(&mut self, text: &str) {
        self.add(shown_lines(text).as_bytes());
        if !text.ends_with('\n') {
            self.add(b"\n");
        }
    }

    /// Adds a text that has no control characters but those of colours, and ends its last line.
    pub fn show(&mut self, text: &str) {
        self.add(text.as_bytes());
        self.add(b"\n");
    }

    /// Adds bytes as they are.
    pub fn add(&mut self, bytes: &[u8]) {
        self.bytes.extend_from_slice(bytes);
    }

    /// The bytes that have been collected.
    pub fn size(&self) -> usize {
        self.bytes.len()
    }

    /// Writes all to standard output.
    pub fn write(&self) -> io::Result<()> {
        if let Some(fault) = system::output_fault().filter(|_| !self.bytes.is_empty()) {
            return Err(io::Error::new(ErrorKind::NotConnected, fault));
        }
        let mut out = io::stdout().lock();
        out.write_all(&self.bytes).and_then(|()| out.flush())
    }
}

/// Writes to standard error. Where that is closed, there is nobody to tell.
pub fn complain(text: &str) {
    let _ = writeln!(io::stderr(), "{}", shown_lines(text).trim_end());
}
