//! What the standard library has no call for: a file's extended attributes, among them its access control list, and
//! whether standard output could be written when the program began. The only unsafe code of the command.

use std::ffi::{c_char, c_int, c_void, CStr, CString};
use std::fs::File;
use std::io;
use std::os::fd::AsRawFd;
use std::sync::atomic::{AtomicI32, Ordering};

/// The extended attributes of an open file, by name. Where the file system has none, the list is empty.
pub fn attributes(file: &File) -> io::Result<Vec<(CString, Vec<u8>)>> {
    let names = filled(|buffer| unsafe {
        // SAFETY: the call writes at most the buffer's length.
        flistxattr(file.as_raw_fd(), buffer.as_mut_ptr().cast(), buffer.len())
    });
    let names = match names {
        Err(error) if error.raw_os_error() == Some(NOT_SUPPORTED) => return Ok(Vec::new()),
        names => names?,
    };
    let names = names.split_inclusive(|byte| *byte == 0).filter_map(|name| CStr::from_bytes_with_nul(name).ok());
    names.map(|name| Ok((name.to_owned(), attribute(file, name)?))).collect()
}

fn attribute(file: &File, name: &CStr) -> io::Result<Vec<u8>> {
    filled(|buffer| unsafe {
        // SAFETY: the name ends with a zero, and the call writes at most the buffer's length.
        fgetxattr(file.as_raw_fd(), name.as_ptr(), buffer.as_mut_ptr().cast(), buffer.len())
    })
}

/// Gives an open file an extended attribute.
pub fn set_attribute(file: &File, name: &CStr, value: &[u8]) -> io::Result<()> {
    // SAFETY: the name ends with a zero, and the call reads the value's length.
    let answer = unsafe { fsetxattr(file.as_raw_fd(), name.as_ptr(), value.as_ptr().cast(), value.len(), 0) };
    accepted(answer as isize).map(drop)
}

/// Takes one away.
pub fn remove_attribute(file: &File, name: &CStr) -> io::Result<()> {
    // SAFETY: the name ends with a zero.
    let answer = unsafe { fremovexattr(file.as_raw_fd(), name.as_ptr()) };
    accepted(answer as isize).map(drop)
}

/// Why nothing can be written to standard output as it was when the program began. The standard library opens a closed
/// one anew, to nowhere, and takes no notice of one that is only to be read.
pub fn output_fault() -> Option<&'static str> {
    match OUTPUT_FLAGS.load(Ordering::Relaxed) {
        -1 => Some("it is closed"),
        flags if flags & ACCESS == 0 => Some("it is open for reading only"),
        _ => None,
    }
}

/// No list and no value is longer on Linux.
const LONGEST: usize = 1 << 16;

fn filled(fill: impl FnOnce(&mut [u8]) -> isize) -> io::Result<Vec<u8>> {
    let mut buffer = vec![0; LONGEST];
    let length = accepted(fill(&mut buffer))?;
    buffer.truncate(length);
    Ok(buffer)
}

/// The answer, or the error that the call has left.
fn accepted(answer: isize) -> io::Result<usize> {
    usize::try_from(answer).map_err(|_| io::Error::last_os_error())
}

static OUTPUT_FLAGS: AtomicI32 = AtomicI32::new(-1);

/// Called before the standard library opens what is closed.
#[used]
#[unsafe(link_section = ".init_array")]
static LOOK_AT_OUTPUT: extern "C" fn() = look_at_output;

extern "C" fn look_at_output() {
    // SAFETY: the call only asks about the descriptor's number.
    OUTPUT_FLAGS.store(unsafe { fcntl(1, ASK_FLAGS) }, Ordering::Relaxed);
}

/// `F_GETFL`, `O_ACCMODE`, where `O_RDONLY` is 0, and `ENOTSUP` of Linux.
const ASK_FLAGS: c_int = 3;
const ACCESS: c_int = 3;
const NOT_SUPPORTED: i32 = 95;

unsafe extern "C" {
    fn fcntl(file: c_int, command: c_int, ...) -> c_int;
    fn flistxattr(file: c_int, list: *mut c_char, size: usize) -> isize;
    fn fgetxattr(file: c_int, name: *const c_char, value: *mut c_void, size: usize) -> isize;
    fn fsetxattr(file: c_int, name: *const c_char, value: *const c_void, size: usize, flags: c_int) -> c_int;
    fn fremovexattr(file: c_int, name: *const c_char) -> c_int;
}
