//! Carries out calls by the library, and reports what it left in every lent word.

use crate::calls::*;
use crate::ffi::{self, Engine};
use ostrubel::calls as library;

const GUARD: u32 = 0xA5C3_5A3C;
const GUARDS: usize = 8;

/// A lent buffer between guard words.
struct Lent {
    name: String,
    words: Vec<u32>,
    length: usize,
}

impl Lent {
    fn new(name: &str, words: &[u32]) -> Self {
        let mut guarded = vec![GUARD; words.len() + 2 * GUARDS];
        guarded[GUARDS..GUARDS + words.len()].copy_from_slice(words);
        Lent { name: name.to_string(), words: guarded, length: words.len() }
    }

    fn words(&self) -> &[u32] {
        &self.words[GUARDS..GUARDS + self.length]
    }

    fn words_mut(&mut self) -> &mut [u32] {
        &mut self.words[GUARDS..GUARDS + self.length]
    }

    /// The buffer after the call.
    fn returned(self) -> Buffer {
        let (front, behind) = (&self.words[..GUARDS], &self.words[GUARDS + self.length..]);
        let overrun = front.iter().chain(behind).any(|&word| word != GUARD);
        let words = self.words().to_vec();
        Buffer { name: self.name, words, overrun }
    }
}

fn lists(operation: &Operation) -> [Lent; 2] {
    let empty = Vec::new();
    let [rows, cols] = operation.lists().unwrap_or([&empty, &empty]);
    [Lent::new("list I", rows), Lent::new("list J", cols)]
}

/// The work buffer and the index lists after the call, in the order of the model.
fn side_buffers(operation: &Operation, work: Lent, lists: [Lent; 2]) -> Vec<Buffer> {
    let mut buffers = vec![work.returned()];
    if operation.lists().is_some() {
        buffers.extend(lists.map(Lent::returned));
    }
    buffers
}

pub fn lent(call: &LentCall) -> Outcome {
    match call {
        LentCall::Check { words } => {
            let buffer = Lent::new("buffer", words);
            let answer = library::check(buffer.words());
            Outcome { answer, buffers: vec![buffer.returned()] }
        }
        LentCall::NewEmpty { words, rows, cols } => {
            let mut buffer = Lent::new("buffer", words);
            let answer = library::new_empty(*rows, *cols, buffer.words_mut());
            Outcome { answer, buffers: vec![buffer.returned()] }
        }
        LentCall::ReadCell { words, i, j } => {
            let buffer = Lent::new("buffer", words);
            let answer = library::read_cell(*i, *j, buffer.words());
            Outcome { answer, buffers: vec![buffer.returned()] }
        }
        LentCall::Reduce { words, monoid } => {
            let buffer = Lent::new("buffer", words);
            let answer = library::reduce(*monoid, buffer.words());
            Outcome { answer, buffers: vec![buffer.returned()] }
        }
        LentCall::RowView { first, second, i, values } => {
            let (first, second) = (Lent::new("first", first), Lent::new("second", second));
            let answer = library::row_view(*i, *values, first.words(), second.words());
            Outcome { answer, buffers: vec![first.returned(), second.returned()] }
        }
        LentCall::Operation(call) => lent_operation(Engine::ByEntries, call),
    }
}

/// A product by the library's first engine.
pub fn lent_by_places(call: &LentCall) -> Option<Outcome> {
    match call {
        LentCall::Operation(call) if matches!(call.operation, Operation::Mxm { .. } | Operation::Vxm { .. }) => {
            Some(lent_operation(Engine::ByPlaces, call))
        }
        _ => None,
    }
}

fn lent_operation(engine: Engine, call: &LentOperation) -> Outcome {
    let inputs: Vec<Lent> =
        call.inputs.iter().enumerate().map(|(number, words)| Lent::new(&format!("input {number}"), words)).collect();
    let lists = lists(&call.operation);
    let mut c = Lent::new("C", &call.c);
    let mut work = Lent::new("work buffer", &call.work.words());
    let answer = ffi::operation(
        engine,
        &call.operation,
        &call.options,
        [call.a, call.b, call.mask].map(|role| inputs[role].words()),
        [lists[0].words(), lists[1].words()],
        c.words_mut(),
        work.words_mut(),
    );
    let mut buffers: Vec<_> = inputs.into_iter().map(Lent::returned).collect();
    buffers.push(c.returned());
    buffers.extend(side_buffers(&call.operation, work, lists));
    Outcome { answer, buffers }
}

/// Carries out one call on the store's words.
pub fn store(words: &mut Vec<u32>, call: &StoreCall) -> Outcome {
    let mut store = Lent::new("store", words);
    let mut others = Vec::new();
    let answer = match call {
        StoreCall::NewEmpty { slot, rows, cols } => library::store_new_empty(*slot, *rows, *cols, store.words_mut()),
        StoreCall::Drop { slot } => library::store_drop(*slot, store.words_mut()),
        StoreCall::SetCell { slot, i, j, value } => library::store_set_cell(*slot, *i, *j, *value, store.words_mut()),
        StoreCall::ClearCell { slot, i, j } => library::store_clear_cell(*slot, *i, *j, store.words_mut()),
        StoreCall::ReadCell { slot, i, j } => library::store_read_cell(*slot, *i, *j, store.words()),
        StoreCall::Reduce { slot, monoid } => library::store_reduce(*slot, *monoid, store.words()),
        StoreCall::Operation(call) => {
            let lists = lists(&call.operation);
            let mut work = Lent::new("work buffer", &call.work.words());
            let answer = ffi::store_operation(
                store.words_mut(),
                &call.operation,
                &call.options,
                [call.a, call.b, call.mask, call.c],
                [lists[0].words(), lists[1].words()],
                work.words_mut(),
            );
            others = side_buffers(&call.operation, work, lists);
            answer
        }
    };
    let store = store.returned();
    words.clone_from(&store.words);
    let mut buffers = vec![store];
    buffers.extend(others);
    Outcome { answer, buffers }
}

#[cfg(test)]
mod tests {
    use super::*;

    #[test]
    fn words_written_beside_a_buffer_are_noticed() {
        assert!(!Lent::new("buffer", &[1, 2, 3]).returned().overrun);
        for at in [0, GUARDS - 1, GUARDS + 3, 2 * GUARDS + 2] {
            let mut lent = Lent::new("buffer", &[1, 2, 3]);
            lent.words[at] = 0;
            assert!(lent.returned().overrun);
        }
    }
}
