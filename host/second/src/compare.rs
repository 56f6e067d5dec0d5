//! Holds the model's outcome of a call against the library's.

use crate::calls::{answers_of, Answers, LentCall, Outcome, StoreCall, StoreList};
use crate::describe::answer_text;
use crate::library;
use crate::model::Model;
use crate::store_grids::StoreState;

/// What differs, in sentences; nothing if the outcomes are equal. `answers` tells how the answer is
/// to be shown.
pub(crate) fn differences(expected: &Outcome, seen: &Outcome, answers: Answers) -> Vec<String> {
    let mut lines = Vec::new();
    if expected.answer != seen.answer {
        lines.push(format!("the model answers   {}", answer_text(expected.answer, answers)));
        lines.push(format!("the library answers {}", answer_text(seen.answer, answers)));
    }
    assert_eq!(expected.buffers.len(), seen.buffers.len(), "both report the same buffers");
    for (model, library) in expected.buffers.iter().zip(&seen.buffers) {
        let name = &library.name;
        if library.overrun {
            lines.push(format!("{name}: the library wrote beside it"));
        }
        if model.words == library.words {
            continue;
        }
        let pairs = model.words.iter().zip(&library.words).enumerate();
        let differing: Vec<(usize, (&u32, &u32))> = pairs.filter(|(_, (model, library))| model != library).collect();
        lines.push(format!("{name}: {} of {} words differ", differing.len(), library.words.len()));
        for (at, (model, library)) in differing.iter().take(8) {
            lines.push(format!("  word {at}: model {model}, library {library}"));
        }
    }
    lines
}

/// A call that was carried out by the library, a product on lent sheets also by its first engine. Operations also tell
/// their flags and numbers.
pub struct Seen {
    pub outcome: Outcome,
    pub by_places: Option<Outcome>,
    pub name: &'static str,
    pub chosen: Option<(u32, (u32, u32))>,
}

pub fn see_lent(call: &LentCall) -> Seen {
    let chosen = match call {
        LentCall::Operation(call) => Some((call.options.flags, call.operation.numbers())),
        _ => None,
    };
    Seen { outcome: library::lent(call), by_places: library::lent_by_places(call), name: call.name(), chosen }
}

pub fn see_list(list: &StoreList) -> Vec<Seen> {
    let mut words = list.store.clone();
    let mut see = |call: &StoreCall| {
        let chosen = match call {
            StoreCall::Operation(call) => Some((call.options.flags, call.operation.numbers())),
            _ => None,
        };
        Seen { outcome: library::store(&mut words, call), by_places: None, name: call.name(), chosen }
    };
    list.calls.iter().map(&mut see).collect()
}

pub fn judge_lent(model: Model, call: &LentCall, seen: &Seen) -> Vec<String> {
    let expected = model.lent(call);
    let mut lines = differences(&expected, &seen.outcome, answers_of(seen.name));
    if let Some(outcome) = &seen.by_places {
        let first = differences(&expected, outcome, answers_of(seen.name));
        lines.extend(first.into_iter().map(|line| format!("by places: {line}")));
    }
    lines
}

/// The number of the first call that differs, with the differences.
pub fn judge_list(model: Model, list: &StoreList, seen: &[Seen]) -> Option<(usize, Vec<String>)> {
    let mut state = StoreState::new(&list.store, model.fault);
    for (number, (call, seen)) in list.calls.iter().zip(seen).enumerate() {
        let lines = differences(&model.store(&mut state, call), &seen.outcome, answers_of(seen.name));
        if !lines.is_empty() {
            return Some((number, lines));
        }
    }
    None
}
