//! Single elements: GrB_Matrix_setElement, removeElement and extractElement. What is written is materialized by
//! GrB_Matrix_wait within the timed call, since the library's calls leave nothing to be done either.

use super::Peer;
use crate::entries::Entries;
use crate::jobs::{Buffers, StoreCall};
use crate::timing::Subject;
use std::hint::black_box;

/// A call on one cell of a slot's matrix.
pub fn element(call: &StoreCall, matrix: &Entries) -> Option<Box<dyn Peer>> {
    let (change, i, j) = match *call {
        StoreCall::SetCell { i, j, value, .. } => (Change::Set(value as i32), i, j),
        StoreCall::ClearCell { i, j, .. } => (Change::Remove, i, j),
        StoreCall::ReadCell { i, j, .. } => (Change::Nothing, i, j),
        _ => return None,
    };
    suitesparse::version().expect("SuiteSparse starts");
    let old = objects::Matrix::new(matrix);
    let is_new = !matrix.cells.contains_key(&(i, j));
    let c = old.duplicate();
    let call = ElementCall { change, i: u64::from(i), j: u64::from(j), is_new, old, c };
    assert!(is_new || call.c.extract(call.i, call.j) == matrix.cells[&(i, j)], "the element is read");
    Some(Box::new(call))
}

/// Reads of each cell of a vector.
pub fn row(vector: &Entries) -> Option<Box<dyn Peer>> {
    suitesparse::version().expect("SuiteSparse starts");
    Some(Box::new(RowRead { matrix: objects::Matrix::new(vector) }))
}

struct RowRead {
    matrix: objects::Matrix,
}

impl Subject for RowRead {
    fn restore(&mut self, _: &mut Buffers) {}

    fn call(&mut self, _: &mut Buffers) {
        for j in 0..self.matrix.cols as u64 {
            black_box(self.matrix.get(0, j));
        }
    }

    fn repeats(&self) -> bool {
        true
    }
}

impl Peer for RowRead {
    fn result(&self) -> Entries {
        self.matrix.entries(self.matrix.rows, self.matrix.cols)
    }
}

enum Change {
    Nothing,
    Set(i32),
    Remove,
}

struct ElementCall {
    change: Change,
    i: u64,
    j: u64,
    is_new: bool,
    old: objects::Matrix,
    c: objects::Matrix,
}

impl Subject for ElementCall {
    fn restore(&mut self, _: &mut Buffers) {
        self.c = self.old.duplicate();
    }

    fn call(&mut self, _: &mut Buffers) {
        match self.change {
            Change::Nothing => {
                black_box(self.c.extract(self.i, self.j));
            }
            Change::Set(value) => self.c.set(self.i, self.j, value),
            Change::Remove => self.c.remove(self.i, self.j),
        }
    }

    fn repeats(&self) -> bool {
        match self.change {
            Change::Nothing => true,
            Change::Set(_) => !self.is_new,
            Change::Remove => false,
        }
    }
}

impl Peer for ElementCall {
    fn result(&self) -> Entries {
        self.c.entries(self.old.rows, self.old.cols)
    }
}

/// A matrix by its handle, with the calls on single elements. The handle is made by a call that succeeded, is seen by
/// nobody else and is freed once; every info code is checked.
mod objects {
    use crate::entries::Entries;
    use std::ffi::{c_int, c_void};
    use std::ptr::null_mut;

    type Handle = *mut c_void;

    const MATERIALIZE: c_int = 1;
    /// The info of an element that is not present.
    const NO_VALUE: c_int = 1;

    extern "C" {
        static GrB_INT32: Handle;
        fn GrB_Matrix_new(a: *mut Handle, kind: Handle, rows: u64, cols: u64) -> c_int;
        fn GrB_Matrix_dup(c: *mut Handle, a: Handle) -> c_int;
        fn GrB_Matrix_free(a: *mut Handle) -> c_int;
        fn GrB_Matrix_wait(a: Handle, mode: c_int) -> c_int;
        fn GrB_Matrix_nvals(entries: *mut u64, a: Handle) -> c_int;
        fn GrB_Matrix_setElement_INT32(c: Handle, value: i32, i: u64, j: u64) -> c_int;
        fn GrB_Matrix_removeElement(c: Handle, i: u64, j: u64) -> c_int;
        fn GrB_Matrix_extractElement_INT32(value: *mut i32, a: Handle, i: u64, j: u64) -> c_int;
    }

    fn checked(info: c_int) {
        assert!(info == 0, "SuiteSparse answers {info}");
    }

    pub struct Matrix {
        handle: Handle,
        pub rows: usize,
        pub cols: usize,
    }

    impl Matrix {
        pub fn new(entries: &Entries) -> Self {
            let (rows, cols) = (entries.rows, entries.cols);
            let mut handle = null_mut();
            checked(unsafe { GrB_Matrix_new(&mut handle, GrB_INT32, rows as u64, cols as u64) });
            let matrix = Matrix { handle, rows, cols };
            for (&(i, j), &value) in &entries.cells {
                checked(unsafe { GrB_Matrix_setElement_INT32(handle, value, u64::from(i), u64::from(j)) });
            }
            matrix.wait();
            matrix
        }

        pub fn duplicate(&self) -> Self {
            let mut handle = null_mut();
            checked(unsafe { GrB_Matrix_dup(&mut handle, self.handle) });
            Matrix { handle, ..*self }
        }

        fn wait(&self) {
            checked(unsafe { GrB_Matrix_wait(self.handle, MATERIALIZE) });
        }

        pub fn set(&mut self, i: u64, j: u64, value: i32) {
            checked(unsafe { GrB_Matrix_setElement_INT32(self.handle, value, i, j) });
            self.wait();
        }

        pub fn remove(&mut self, i: u64, j: u64) {
            checked(unsafe { GrB_Matrix_removeElement(self.handle, i, j) });
            self.wait();
        }

        /// The value of a present element.
        pub fn extract(&self, i: u64, j: u64) -> i32 {
            let mut value = 0;
            checked(unsafe { GrB_Matrix_extractElement_INT32(&mut value, self.handle, i, j) });
            value
        }

        /// The value of an element, if it is present.
        pub fn get(&self, i: u64, j: u64) -> Option<i32> {
            let mut value = 0;
            match unsafe { GrB_Matrix_extractElement_INT32(&mut value, self.handle, i, j) } {
                NO_VALUE => None,
                info => {
                    checked(info);
                    Some(value)
                }
            }
        }

        /// All entries, found one by one.
        pub fn entries(&self, rows: usize, cols: usize) -> Entries {
            let mut entries = Entries::new(rows, cols);
            for i in 0..rows as u32 {
                for j in 0..cols as u32 {
                    if let Some(value) = self.get(u64::from(i), u64::from(j)) {
                        entries.cells.insert((i, j), value);
                    }
                }
            }
            let mut count = 0;
            checked(unsafe { GrB_Matrix_nvals(&mut count, self.handle) });
            assert!(count == entries.cells.len() as u64, "every entry is found");
            entries
        }
    }

    impl Drop for Matrix {
        fn drop(&mut self) {
            // A free that fails leaves nothing to be done.
            let _ = unsafe { GrB_Matrix_free(&mut self.handle) };
        }
    }
}
