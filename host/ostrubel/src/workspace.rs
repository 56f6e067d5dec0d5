//! The words that operations and formulas work in: one buffer of each for each thread, kept from call to call.

use crate::{FORMULA_WORDS, WORKSPACE_WORDS};
use std::cell::Cell;
use std::thread::LocalKey;

thread_local! {
    static WORDS: Cell<Vec<u32>> = const { Cell::new(Vec::new()) };
    static STACK: Cell<Vec<u32>> = const { Cell::new(Vec::new()) };
}

/// Lends the thread's workspace to a call.
pub fn lend<R>(call: impl FnOnce(&mut [u32]) -> R) -> R {
    lend_kept(&WORDS, WORKSPACE_WORDS, call)
}

/// Lends the thread's stack to a formula.
pub fn lend_stack<R>(call: impl FnOnce(&mut [u32]) -> R) -> R {
    lend_kept(&STACK, FORMULA_WORDS, call)
}

/// Lends a buffer of the thread to a call. While the thread ends there is none to keep, and the call gets a new one.
fn lend_kept<R>(kept: &'static LocalKey<Cell<Vec<u32>>>, length: usize, call: impl FnOnce(&mut [u32]) -> R) -> R {
    let mut words = kept.try_with(Cell::take).unwrap_or_default();
    words.resize(length, 0);
    let result = call(&mut words);
    let _ = kept.try_with(|kept| kept.set(words));
    result
}

#[cfg(test)]
mod tests {
    use super::lend;
    use crate::WORKSPACE_WORDS;

    #[test]
    fn has_enough_words_and_is_kept() {
        let first = lend(|work| (work.len(), work.as_ptr() as usize));
        let second = lend(|work| (work.len(), work.as_ptr() as usize));
        assert_eq!(first.0, WORKSPACE_WORDS);
        assert_eq!(first, second);
    }

    #[test]
    fn a_call_within_a_call_gets_words_of_its_own() {
        let length = lend(|outer| lend(|inner| inner.len() + outer.len()));
        assert_eq!(length, 2 * WORKSPACE_WORDS);
    }

    /// Works while its thread ends.
    struct AtTheEnd;

    impl Drop for AtTheEnd {
        fn drop(&mut self) {
            assert_eq!(lend(|work| work.len()), WORKSPACE_WORDS);
        }
    }

    thread_local! {
        static AT_THE_END: AtTheEnd = const { AtTheEnd };
    }

    #[test]
    fn is_there_while_a_thread_ends() {
        let thread = std::thread::spawn(|| {
            AT_THE_END.with(|_| ());
            lend(|work| work.len())
        });
        assert_eq!(thread.join().ok(), Some(WORKSPACE_WORDS));
    }
}
