//! Accepted operations, with the matrices before the call and C after it.

use second::calls::{code_of, counted, LentCall, LentOperation, Operation, Options, StoreCall, StoreOperation};
use second::fault::Fault;
use second::grid::Grid;
use second::library;
use second::store_grids::StoreGrids;

/// An operation that the library accepted. The roles are positions in `grids`, so that one matrix may have several.
#[derive(Clone, Debug)]
pub struct Case {
    /// The function of the library.
    pub name: &'static str,
    pub operation: Operation,
    pub options: Options,
    /// The matrices before the call; none where the words were no matrix or a slot was empty.
    pub grids: Vec<Option<Grid>>,
    pub a: usize,
    pub b: usize,
    pub mask: usize,
    pub c: usize,
    /// C after the call.
    pub after: Option<Grid>,
    pub answer: u64,
}

/// A matrix that the library reduced to a number.
#[derive(Clone, Debug)]
pub struct Total {
    /// The function of the library.
    pub name: &'static str,
    pub monoid: u32,
    /// None where the words were no matrix or the slot was empty.
    pub grid: Option<Grid>,
    pub answer: u64,
}

/// What the library made of a call.
pub enum Seen {
    NoOperation,
    Total(Total),
    Refused(u32),
    Accepted(Box<Case>),
}

impl Case {
    /// The positions of the roles that the call has.
    pub fn roles(&self) -> Vec<usize> {
        let mut roles = vec![self.a, self.c];
        if self.operation.has_second() {
            roles.push(self.b);
        }
        if self.options.has_mask {
            roles.push(self.mask);
        }
        roles
    }

    /// Whether C is also an input or the mask.
    pub fn is_aliased(&self) -> bool {
        self.roles().iter().filter(|&&role| role == self.c).count() > 1
    }

    /// What is wrong with the call or with its answer before any values are looked at.
    pub fn complaint(&self) -> Option<String> {
        if self.options.flags > 31 {
            return Some("the library accepted flags above 31".to_string());
        }
        if self.roles().iter().any(|&role| !matches!(self.grids.get(role), Some(Some(_)))) {
            return Some("the library accepted a call with a role that has no matrix".to_string());
        }
        let Some(after) = &self.after else {
            return Some("the library left no valid matrix in C".to_string());
        };
        let answer = counted(0, after.cells.len());
        (self.answer != answer).then(|| format!("the library answers {} and not {answer}", self.answer))
    }
}

/// A call on lent matrices, carried out by the library.
pub fn see_lent(call: &LentCall) -> Seen {
    if let LentCall::Reduce { words, monoid } = call {
        let answer = library::lent(call).answer;
        let grid = Grid::read(words, Fault::None);
        return total_seen(Total { name: call.name(), monoid: *monoid, grid, answer });
    }
    let LentCall::Operation(operation) = call else {
        return Seen::NoOperation;
    };
    let outcome = library::lent(call);
    match code_of(outcome.answer) {
        0 => {
            let after = outcome.buffers.iter().find(|buffer| buffer.name == "C");
            let after = after.and_then(|buffer| Grid::read(&buffer.words, Fault::None));
            Seen::Accepted(Box::new(lent_case(call.name(), operation, after, outcome.answer)))
        }
        code => Seen::Refused(code),
    }
}

fn total_seen(total: Total) -> Seen {
    match code_of(total.answer) {
        0 => Seen::Total(total),
        code => Seen::Refused(code),
    }
}

fn lent_case(name: &'static str, call: &LentOperation, after: Option<Grid>, answer: u64) -> Case {
    let mut grids: Vec<Option<Grid>> = call.inputs.iter().map(|words| Grid::read(words, Fault::None)).collect();
    grids.push(Grid::read(&call.c, Fault::None));
    let (operation, options) = (call.operation.clone(), call.options.clone());
    let LentOperation { a, b, mask, .. } = *call;
    Case { name, operation, options, c: grids.len() - 1, grids, a, b, mask, after, answer }
}

/// A call on a store with these words, carried out by the library; the words after it.
pub fn see_store(before: &[u32], call: &StoreCall) -> (Seen, Vec<u32>) {
    let mut words = before.to_vec();
    let answer = library::store(&mut words, call).answer;
    if let StoreCall::Reduce { slot, monoid } = call {
        let grid = slots(before).get_mut(*slot).and_then(Option::take);
        return (total_seen(Total { name: call.name(), monoid: *monoid, grid, answer }), words);
    }
    let StoreCall::Operation(operation) = call else {
        return (Seen::NoOperation, words);
    };
    let seen = match code_of(answer) {
        0 => {
            let after = slots(&words).get_mut(operation.c).and_then(Option::take);
            Seen::Accepted(Box::new(store_case(call.name(), operation, slots(before), after, answer)))
        }
        code => Seen::Refused(code),
    };
    (seen, words)
}

/// The matrices of a store; none at all where the words are no store.
fn slots(words: &[u32]) -> Vec<Option<Grid>> {
    StoreGrids::read(words, Fault::None).map_or(Vec::new(), |grids| grids.slots.into())
}

fn store_case(
    name: &'static str,
    call: &StoreOperation,
    grids: Vec<Option<Grid>>,
    after: Option<Grid>,
    answer: u64,
) -> Case {
    let (operation, options) = (call.operation.clone(), call.options.clone());
    let StoreOperation { a, b, mask, c, .. } = *call;
    Case { name, operation, options, grids, a, b, mask, c, after, answer }
}
