//! The calls of SuiteSparse:GraphBLAS as safe functions on objects that free themselves.
//!
//! Why they are safe. An object's handle is made by a call that succeeded, is seen by nobody else, and is freed once.
//! Objects stay in one thread, since a handle is a raw pointer. Slices are passed with their lengths, and a call that
//! fills slices is given as many as it asks for. Shapes, indexes and everything else that a caller may get wrong is
//! answered by an info code, which becomes an `Error`.

mod declarations;
pub mod objects;
pub mod operations;

use declarations as c;
use std::fmt;
use std::sync::OnceLock;

/// A call that answered an info code other than success.
#[derive(Clone, Copy, Debug, PartialEq, Eq)]
pub struct Error {
    pub call: &'static str,
    pub info: i32,
}

impl fmt::Display for Error {
    fn fmt(&self, f: &mut fmt::Formatter) -> fmt::Result {
        write!(f, "{}: {} ({})", self.call, info_name(self.info), self.info)
    }
}

impl std::error::Error for Error {}

fn info_name(info: i32) -> &'static str {
    match info {
        1 => "no value",
        2 => "exhausted",
        -1 => "uninitialized object",
        -2 => "null pointer",
        -3 => "invalid value",
        -4 => "invalid index",
        -5 => "domain mismatch",
        -6 => "dimension mismatch",
        -7 => "output not empty",
        -8 => "not implemented",
        -101 => "panic",
        -102 => "out of memory",
        -103 => "insufficient space",
        -104 => "invalid object",
        -105 => "index out of bounds",
        -106 => "empty object",
        ANOTHER_VERSION => "the library is not of version 7",
        _ => "unknown info",
    }
}

/// Not one of the library's own codes.
const ANOTHER_VERSION: i32 = i32::MIN;

fn checked(call: &'static str, info: c::Info) -> Result<(), Error> {
    match info {
        0 => Ok(()),
        _ => Err(Error { call, info }),
    }
}

/// A call by its name, with its info code checked.
macro_rules! call {
    ($function:ident($($argument:expr),* $(,)?)) => {
        crate::raw::checked(stringify!($function), crate::raw::c::$function($($argument),*))
    };
}
use call;

/// Starts the library once, with one thread.
fn start() -> Result<(), Error> {
    static STARTED: OnceLock<Result<(), Error>> = OnceLock::new();
    *STARTED.get_or_init(|| {
        unsafe {
            call!(GrB_init(c::NONBLOCKING))?;
            call!(GxB_Global_Option_set_INT32(c::GLOBAL_NTHREADS, 1))?;
        }
        match read_version()?[0] {
            7 => Ok(()),
            _ => Err(Error { call: "GrB_init", info: ANOTHER_VERSION }),
        }
    })
}

fn read_version() -> Result<[i32; 3], Error> {
    let mut version = [0; 3];
    unsafe { call!(GxB_Global_Option_get_INT32(c::LIBRARY_VERSION, version.as_mut_ptr()))? };
    Ok(version)
}

/// The most threads that a call may use.
pub fn threads() -> Result<i32, Error> {
    start()?;
    let mut threads = 0;
    unsafe { call!(GxB_Global_Option_get_INT32(c::GLOBAL_NTHREADS, &mut threads))? };
    Ok(threads)
}

/// The version of the library that is linked.
pub fn version() -> Result<[i32; 3], Error> {
    start()?;
    read_version()
}
