//! Document 02, A8: formulas over a store, by its sentences. A text is read from its last joining byte, so that what stands
//! left of it is worked out first. The answer and every word of the store and of the stack are held against the library's,
//! of single calls and of lists of calls on a store that have formulas among the others.

use crate::calls::{answers_of, code_of, counted, StoreCall, StoreList, Work};
use crate::compare::differences;
use crate::fault::Fault;
use crate::generate::{any_monoid, grid};
use crate::generate_store::store_list;
use crate::grid::{Grid, MAX_ENTRIES};
use crate::library;
use crate::model::SOUND;
use crate::operators::{binary, is_binary, is_monoid};
use crate::rng::Rng;
use crate::store_grids::{StoreGrids, StoreState, SLOTS};
use std::collections::BTreeMap;

/// "At most 64 bytes, no blanks, at most three brackets open at once."
const MAX_BYTES: usize = 64;
const MAX_BRACKETS: usize = 3;

/// "The stack buffer is lent by the host, at least 65,000 words"
const STACK_WORDS: usize = 65_000;

/// A wrong reading of the rule, planted to see that the comparison notices it.
#[derive(Clone, Copy, Debug, PartialEq, Eq)]
pub enum Slip {
    None,
    RightToLeft,
    SumFirst,
    OperandsSwapped,
    FourthBracket,
    EmptyFactor,
    EightNamed,
    LongerText,
    TargetEmptyRefused,
    TextBeforeNumbers,
    EmptyBeforeText,
    StackBeforeEmpty,
    ShapesBeforeStack,
    StepUncounted,
    RoomBesideTarget,
    StackKeptOnText,
    StackOneLess,
    RevisionKept,
}

/// A formula as a tree.
#[derive(Clone, Debug, PartialEq, Eq)]
pub enum Tree {
    Digit(usize),
    Sum(Box<Tree>, Box<Tree>),
    Product(Box<Tree>, Box<Tree>),
}

/// The place of the byte at which the text is parted: the last (or, by a slip, the first) one outside brackets.
fn parting(text: &[u8], byte: u8, slip: Slip) -> Option<usize> {
    let mut open = 0i32;
    let mut places = Vec::new();
    for (place, &x) in text.iter().enumerate() {
        open += i32::from(x == b'(') - i32::from(x == b')');
        if open == 0 && x == byte {
            places.push(place);
        }
    }
    if slip == Slip::RightToLeft {
        places.first().copied()
    } else {
        places.last().copied()
    }
}

/// The tree of a text with at most so many brackets open, if it is in the language.
fn tree(text: &[u8], brackets: usize, slip: Slip) -> Option<Tree> {
    let (loose, tight) = if slip == Slip::SumFirst { (b'*', b'+') } else { (b'+', b'*') };
    for byte in [loose, tight] {
        if let Some(place) = parting(text, byte, slip) {
            let left = Box::new(tree(&text[..place], brackets, slip)?);
            let right = Box::new(tree(&text[place + 1..], brackets, slip)?);
            return Some(if byte == b'+' { Tree::Sum(left, right) } else { Tree::Product(left, right) });
        }
    }
    match text {
        [digit @ b'0'..=b'7'] => Some(Tree::Digit(usize::from(digit - b'0'))),
        [b'8'] if slip == Slip::EightNamed => Some(Tree::Digit(0)),
        [] if slip == Slip::EmptyFactor => Some(Tree::Digit(0)),
        [b'(', inner @ .., b')'] if brackets > 0 => tree(inner, brackets - 1, slip),
        _ => None,
    }
}

/// The reading of a whole text.
pub fn reading(text: &[u8], slip: Slip) -> Option<Tree> {
    let longest = MAX_BYTES + usize::from(slip == Slip::LongerText);
    let brackets = MAX_BRACKETS + usize::from(slip == Slip::FourthBracket);
    if text.len() > longest {
        None
    } else {
        tree(text, brackets, slip)
    }
}

impl Tree {
    fn named(&self, into: &mut Vec<usize>) {
        match self {
            Tree::Digit(slot) => into.push(*slot),
            Tree::Sum(left, right) | Tree::Product(left, right) => {
                left.named(into);
                right.named(into);
            }
        }
    }

    /// "the first failing step's 8 or 10 (left to right, a term worked out before it is added)"
    fn worth(&self, grids: &StoreGrids, monoid: u32, op: u32, slip: Slip) -> Result<Grid, u32> {
        let both = |left: &Tree, right: &Tree| {
            let left = left.worth(grids, monoid, op, slip)?;
            Ok::<_, u32>((left, right.worth(grids, monoid, op, slip)?))
        };
        let result = match self {
            Tree::Digit(slot) => return grids.slots[*slot].clone().ok_or(13),
            Tree::Sum(left, right) => {
                let (mut left, right) = both(left, right)?;
                if left.shape() != right.shape() {
                    return Err(8);
                }
                for (at, y) in right.cells {
                    let joined = |x: &mut i32| *x = binary(monoid, *x, y, Fault::None);
                    left.cells.entry(at).and_modify(joined).or_insert(y);
                }
                left
            }
            Tree::Product(left, right) => {
                let (mut left, mut right) = both(left, right)?;
                if slip == Slip::OperandsSwapped && left.shape() == right.shape() {
                    std::mem::swap(&mut left, &mut right);
                }
                if left.cols != right.rows {
                    return Err(8);
                }
                let mut product = Grid::empty(left.rows, right.cols);
                for (&(i, k), &x) in &left.cells {
                    for (&(_, j), &y) in right.cells.range((k, 0)..(k + 1, 0)) {
                        let term = binary(op, x, y, Fault::None);
                        let added = |sum: &mut i32| *sum = binary(monoid, *sum, term, Fault::None);
                        product.cells.entry((i, j)).and_modify(added).or_insert(term);
                    }
                }
                product
            }
        };
        if result.cells.len() > MAX_ENTRIES && slip != Slip::StepUncounted {
            return Err(10);
        }
        Ok(result)
    }
}

/// One call, on whatever store it is given.
#[derive(Clone, Debug)]
pub struct Formula {
    pub target: usize,
    pub monoid: u32,
    pub op: u32,
    pub text: Vec<u8>,
    pub stack: Work,
}

/// The answer, and the two written buffers after the call.
#[derive(PartialEq, Eq, Debug)]
pub struct After {
    answer: u64,
    store: Vec<u32>,
    stack: Vec<u32>,
}

impl Formula {
    /// 12, 2, 14, 13, 9, the first failing step's 8 or 10, 11; or the grids after the call and N.
    fn outcome(&self, grids: Option<&StoreGrids>, slip: Slip) -> Result<(StoreGrids, usize), u32> {
        let grids = grids.filter(|_| self.target < SLOTS).ok_or(12u32)?;
        let known = is_monoid(self.monoid, Fault::None) && is_binary(self.op);
        let numbers = if known { Ok(()) } else { Err(2u32) };
        if slip != Slip::TextBeforeNumbers {
            numbers?;
        }
        let least = STACK_WORDS - usize::from(slip == Slip::StackOneLess);
        let stack = if self.stack.length < least { Err(9u32) } else { Ok(()) };
        let empty =
            |slots: &[usize]| if slots.iter().any(|&slot| grids.slots[slot].is_none()) { Err(13u32) } else { Ok(()) };
        if slip == Slip::EmptyBeforeText {
            let digits = self.text.iter().filter(|x| (b'0'..=b'7').contains(x));
            empty(&digits.map(|x| usize::from(x - b'0')).collect::<Vec<_>>())?;
        }
        let tree = reading(&self.text, slip).ok_or(14u32)?;
        numbers?;
        if slip == Slip::StackBeforeEmpty {
            stack?;
        }
        let mut named = Vec::new();
        tree.named(&mut named);
        if slip == Slip::TargetEmptyRefused {
            named.push(self.target);
        }
        empty(&named)?;
        if slip != Slip::ShapesBeforeStack {
            stack?;
        }
        let mut result = tree.worth(grids, self.monoid, self.op, slip)?;
        // A12: "Sheets made by recipes .. start at 0".
        if slip != Slip::RevisionKept {
            result.revision = 0;
        }
        stack?;
        let mut after = grids.clone();
        let beside =
            if slip == Slip::RoomBesideTarget { grids.slots[self.target].as_ref().map_or(0, Grid::size) } else { 0 };
        let entries = result.cells.len();
        after.slots[self.target] = Some(result);
        if after.room() + beside > grids.length {
            return Err(11);
        }
        Ok((after, entries))
    }

    /// Carries out the call on the grids by the rule: the answer and the buffers.
    fn expected(&self, state: &mut StoreState, slip: Slip) -> After {
        let outcome = self.outcome(state.grids.as_ref(), slip);
        let kept = slip == Slip::StackKeptOnText && outcome == Err(14);
        let stack = if kept { self.stack.words() } else { vec![0; self.stack.length] };
        let answer = match outcome {
            Err(code) => counted(code, 0),
            Ok((grids, entries)) => {
                *state = StoreState { words: grids.words(), grids: Some(grids) };
                counted(0, entries)
            }
        };
        After { answer, store: state.words.clone(), stack }
    }

    /// The answer and the buffers by the library.
    fn seen(&self, store: &[u32]) -> After {
        let (mut store, mut stack) = (store.to_vec(), self.stack.words());
        let Formula { target, monoid, op, text, .. } = self;
        let answer = ostrubel::calls::store_formula(*target, *monoid, *op, text, &mut store, &mut stack);
        After { answer, store, stack }
    }

    /// What differs is the error; else the answer.
    fn judge(&self, expected: &After, seen: &After) -> Result<u64, String> {
        if expected == seen {
            return Ok(seen.answer);
        }
        let text = String::from_utf8_lossy(&self.text);
        let (words, cleared) = (expected.store == seen.store, expected.stack == seen.stack);
        Err(format!(
            "\"{text}\" into {}, {}.{}: expected {}, seen {}; the store as expected: {words}, the stack: {cleared}",
            self.target, self.monoid, self.op, expected.answer, seen.answer
        ))
    }
}

/// A call on a store, alone.
#[derive(Clone, Debug)]
pub struct Single {
    pub store: Vec<u32>,
    pub formula: Formula,
}

impl Single {
    /// What goes wrong is the error.
    pub fn judge(&self, slip: Slip) -> Result<u64, String> {
        let mut state = StoreState::new(&self.store, Fault::None);
        self.formula.judge(&self.formula.expected(&mut state, slip), &self.formula.seen(&self.store))
    }
}

/// A call of a list.
#[derive(Clone, Debug)]
enum Step {
    Formula(Formula),
    Other(StoreCall),
}

/// A store as it is before the first call, and calls on it, formulas among them.
#[derive(Clone, Debug)]
pub struct List {
    store: Vec<u32>,
    steps: Vec<Step>,
}

/// How many calls of a list were no formulas, and how often a formula was answered by each code.
#[derive(Default)]
pub struct Counts {
    pub others: u64,
    pub codes: BTreeMap<u32, u64>,
}

impl List {
    /// Each call gets the words as the one before left them, and the grids are given the same calls. What goes wrong is
    /// the error.
    pub fn judge(&self, counts: &mut Counts, slip: Slip) -> Result<(), String> {
        let mut words = self.store.clone();
        let mut state = StoreState::new(&self.store, Fault::None);
        for (number, step) in self.steps.iter().enumerate() {
            match step {
                Step::Formula(formula) => {
                    let (expected, seen) = (formula.expected(&mut state, slip), formula.seen(&words));
                    let answer = formula.judge(&expected, &seen).map_err(|text| format!("call {number}, {text}"))?;
                    *counts.codes.entry(code_of(answer)).or_default() += 1;
                    words = seen.store;
                }
                Step::Other(call) => {
                    let (expected, seen) = (SOUND.store(&mut state, call), library::store(&mut words, call));
                    let lines = differences(&expected, &seen, answers_of(call.name()));
                    if !lines.is_empty() {
                        return Err(format!("call {number}, {}: {}", call.name(), lines.join("; ")));
                    }
                    counts.others += 1;
                }
            }
        }
        Ok(())
    }
}

/// The text of a random tree of at most so many bytes, with at most so many brackets open.
fn text(rng: &mut Rng, slots: &[usize], bytes: usize, brackets: usize) -> Vec<u8> {
    let mut written = factor(rng, slots, bytes, brackets);
    while written.len() + 2 <= bytes && !rng.once_in(3) {
        written.push(rng.pick(b"+*"));
        written.extend(factor(rng, slots, bytes - written.len(), brackets));
    }
    written
}

fn factor(rng: &mut Rng, slots: &[usize], bytes: usize, brackets: usize) -> Vec<u8> {
    if bytes < 3 || brackets == 0 || !rng.once_in(3) {
        return vec![b'0' + rng.pick(slots) as u8];
    }
    let mut inner = text(rng, slots, bytes - 2, brackets - 1);
    inner.insert(0, b'(');
    inner.push(b')');
    inner
}

fn damage_text(rng: &mut Rng, text: &mut Vec<u8>) {
    let place = rng.below(text.len() + 1);
    match rng.below(5) {
        0 => text.insert(place, rng.pick(b"01278+*() \0")),
        1 if place < text.len() => drop(text.remove(place)),
        2 if place < text.len() => text[place] = rng.pick(b"0189+*()/ -\xff"),
        3 => {
            text.insert(0, b'(');
            text.push(b')');
        }
        _ => text.truncate(place),
    }
}

/// A text that is exactly 63 or 65 bytes long, or deep.
fn odd_text(rng: &mut Rng, slots: &[usize]) -> Vec<u8> {
    let digit = b'0' + rng.pick(slots) as u8;
    let joined = |count: usize, byte: u8| (0..2 * count - 1).map(|k| if k % 2 == 0 { digit } else { byte }).collect();
    match rng.below(4) {
        0 => joined(32, rng.pick(b"+*")),
        1 => joined(33, rng.pick(b"+*")),
        2 => b"0*(1+2*(3+4*(5+6*7)))".to_vec(),
        _ => b"0+(1+(2+(3+4*5)*6)*7)".to_vec(),
    }
}

/// A call on the store of a random list, its slots mostly of one square shape.
pub fn single(rng: &mut Rng) -> Single {
    let StoreList { store, .. } = first_list(rng);
    let formula = formula(rng, StoreGrids::read(&store, Fault::None).as_ref());
    Single { store, formula }
}

/// A list of calls with formulas before some of them and behind the last.
pub fn list(rng: &mut Rng) -> List {
    let StoreList { store, calls } = first_list(rng);
    let mut state = StoreState::new(&store, Fault::None);
    let mut steps = Vec::new();
    for call in calls.into_iter().map(Some).chain([None]) {
        if call.is_none() || rng.once_in(3) {
            let formula = formula(rng, state.grids.as_ref());
            formula.expected(&mut state, Slip::None);
            steps.push(Step::Formula(formula));
        }
        if let Some(call) = call {
            SOUND.store(&mut state, &call);
            steps.push(Step::Other(call));
        }
    }
    List { store, steps }
}

/// A list of calls without formulas; its store mostly one whose sheets agree.
fn first_list(rng: &mut Rng) -> StoreList {
    let mut list = store_list(rng);
    if !rng.once_in(4) {
        list.store = matching_store(rng);
    }
    list
}

/// A formula for these grids; one in three is spoilt.
fn formula(rng: &mut Rng, grids: Option<&StoreGrids>) -> Formula {
    let held: Vec<usize> = match grids {
        Some(grids) => (0..SLOTS).filter(|&slot| grids.slots[slot].is_some()).collect(),
        None => Vec::new(),
    };
    let slots = if held.is_empty() || rng.once_in(30) { (0..SLOTS).collect() } else { held };
    let bytes = rng.pick(&[1, 3, 5, 7, 9, 15, 31, 63]);
    let text = if rng.once_in(12) { odd_text(rng, &slots) } else { text(rng, &slots, bytes, MAX_BRACKETS) };
    let stack = Work { length: STACK_WORDS + rng.pick(&[0, 0, 0, 1, 77]), seed: rng.next() };
    let mut call = Formula { target: rng.below(SLOTS), monoid: any_monoid(rng), op: rng.below(8) as u32, text, stack };
    while rng.once_in(4) {
        match rng.below(7) {
            0 => call.target = rng.pick(&[8, 9, 1 << 32, usize::MAX]),
            1 => call.monoid = rng.pick(&[0, 1, 2, 4, 8, u32::MAX]),
            2 => call.op = rng.pick(&[8, 9, u32::MAX]),
            3 => call.stack.length = rng.pick(&[STACK_WORDS - 1, STACK_WORDS - 1, 0, 100]),
            _ => damage_text(rng, &mut call.text),
        }
    }
    call
}

/// A store whose sheets agree mostly, with much or little room.
fn matching_store(rng: &mut Rng) -> Vec<u32> {
    let side = rng.pick(&[1, 2, 3, 5, 9, 46, 60, 300, 1000]);
    let mut grids = StoreGrids::fresh(16_384);
    for slot in 0..SLOTS {
        let (rows, cols) = if rng.once_in(25) { (rng.between(1, 4), side) } else { (side, side) };
        if !rng.once_in(12) {
            grids.slots[slot] = Some(grid(rng, rows, cols));
        }
        if grids.room() > 16_384 {
            grids.slots[slot] = None;
        }
    }
    let spare = rng.pick(&[0, 1, 2, 20, 3000, 16_384]);
    grids.length = (grids.room() + spare).min(16_384);
    grids.words()
}

/// Every text of at most so many bytes over these bytes: those of the language are refused by 9, for want of a stack, and
/// the others by 14. How many there are of each.
pub fn judge_texts(most: usize) -> Result<(u64, u64), String> {
    const BYTES: &[u8] = b"078+*() ";
    let mut store = StoreGrids::fresh(200);
    store.slots = std::array::from_fn(|_| Some(Grid::empty(1, 1)));
    let store = store.words();
    let (mut formulas, mut others) = (0, 0);
    for length in 0..=most {
        for number in 0..(BYTES.len() as u64).pow(length as u32) {
            let digit = |place: usize| BYTES[(number >> (3 * place)) as usize & 7];
            let text: Vec<u8> = (0..length).map(digit).collect();
            let expected = if reading(&text, Slip::None).is_some() { 9 } else { 14 };
            let mut words = store.clone();
            let seen = ostrubel::calls::store_formula(0, 3, 5, &text, &mut words, &mut []);
            if seen != expected || words != store {
                return Err(format!("{:?}: expected {expected}, seen {seen}", String::from_utf8_lossy(&text)));
            }
            if expected == 9 {
                formulas += 1
            } else {
                others += 1
            }
        }
    }
    Ok((formulas, others))
}

#[cfg(test)]
mod tests {
    use super::*;

    const SLIPS: [Slip; 17] = [
        Slip::RightToLeft,
        Slip::SumFirst,
        Slip::OperandsSwapped,
        Slip::FourthBracket,
        Slip::EmptyFactor,
        Slip::EightNamed,
        Slip::LongerText,
        Slip::TargetEmptyRefused,
        Slip::TextBeforeNumbers,
        Slip::EmptyBeforeText,
        Slip::StackBeforeEmpty,
        Slip::ShapesBeforeStack,
        Slip::StepUncounted,
        Slip::RoomBesideTarget,
        Slip::StackKeptOnText,
        Slip::StackOneLess,
        Slip::RevisionKept,
    ];

    #[test]
    fn each_slip_is_noticed() {
        for slip in SLIPS {
            let mut calls = (0..100_000).map(|number| single(&mut Rng::of_case(1, 5, number)));
            assert!(calls.any(|call| call.judge(slip).is_err()), "{slip:?}");
        }
    }

    #[test]
    fn slips_are_noticed_in_lists() {
        for slip in [Slip::RightToLeft, Slip::TargetEmptyRefused, Slip::RoomBesideTarget, Slip::RevisionKept] {
            let mut lists = (0..2_000).map(|number| list(&mut Rng::of_case(1, 6, number)));
            assert!(lists.any(|list| list.judge(&mut Counts::default(), slip).is_err()), "{slip:?}");
        }
    }

    #[test]
    fn readings_of_texts() {
        let digit = |slot| Box::new(Tree::Digit(slot));
        let read = |text: &str| reading(text.as_bytes(), Slip::None);
        let left = Tree::Sum(Box::new(Tree::Sum(digit(0), digit(1))), digit(2));
        assert_eq!(read("0+1+2"), Some(left));
        assert_eq!(read("0+1*2"), Some(Tree::Sum(digit(0), Box::new(Tree::Product(digit(1), digit(2))))));
        assert_eq!(read("(((7)))"), Some(Tree::Digit(7)));
        for text in ["", "8", "0 +1", "0+", "()", "((((7))))", "(0", "0)", "01", "+0", "0++1"] {
            assert_eq!(read(text), None, "{text}");
        }
        assert!(read("0+".repeat(32).trim_end_matches('+')).is_some());
        assert_eq!(read("0+".repeat(33).trim_end_matches('+')), None);
    }
}
