//! Formulas over the slots of a store.

use super::answer::{ensure, pack, Refusal, Result};
use super::compute::{product_row, union_row};
use super::dense::{DenseRow, RowBuffer};
use super::matrix::{Matrix, MAX_WORDS};
use super::operators::BinaryOp;
use super::output::Output;
use super::sections::Store;
use super::store::parse;

const MAX_BYTES: usize = 64;
const MAX_BRACKETS: usize = 3;
const STACK_WORDS: usize = 65_000;

/// The matrices that can be kept in the stack: at each depth of brackets a sum and a term, and one that is worked out.
const FRAMES: usize = 2 * (MAX_BRACKETS + 1) + 1;

/// The value of a formula over the slots, in the target's place.
pub fn store_formula(target: usize, monoid: u32, op: u32, text: &[u8], store: &mut [u32], stack: &mut [u32]) -> u64 {
    let answer = attempt(target, monoid, op, text, store, stack);
    stack.fill(0);
    pack(answer)
}

fn attempt(target: usize, monoid: u32, op: u32, text: &[u8], words: &mut [u32], stack: &mut [u32]) -> Result<usize> {
    let store = parse(words, &[target])?;
    let monoid = BinaryOp::monoid(monoid).ok_or(Refusal::UnknownOperator)?;
    let op = BinaryOp::numbered(op).ok_or(Refusal::UnknownOperator)?;
    ensure(is_formula(text), Refusal::InvalidFormula)?;
    let named = text.iter().filter(|byte| byte.is_ascii_digit());
    ensure(named.copied().all(|digit| store.matrix(slot(digit)).is_some()), Refusal::EmptySlot)?;
    ensure(stack.len() >= STACK_WORDS, Refusal::WorkspaceTooShort)?;
    let mut frames = Frames::new(stack);
    let bounds = store.bounds;
    let held = Evaluation { text, store, monoid, op, frames: &mut frames }.result()?;
    let result = frames.matrix(held);
    ensure(bounds.needed(target, result.size()) <= words.len(), Refusal::InsufficientSpace)?;
    bounds.resize(words, target, result.size());
    result.write(&mut words[bounds.contents_at(target)..]);
    Ok(result.entries())
}

fn slot(digit: u8) -> usize {
    usize::from(digit - b'0')
}

/// Whether the text is in the language.
fn is_formula(text: &[u8]) -> bool {
    let (mut open, mut wants_factor) = (0, true);
    for byte in text {
        match byte {
            b'0'..=b'7' if wants_factor => wants_factor = false,
            b'(' if wants_factor && open < MAX_BRACKETS => open += 1,
            b')' if !wants_factor && open > 0 => open -= 1,
            b'+' | b'*' if !wants_factor => wants_factor = true,
            _ => return false,
        }
    }
    text.len() <= MAX_BYTES && !wants_factor && open == 0
}

/// A matrix of the store, or one in a frame of the stack.
#[derive(Clone, Copy)]
enum Value {
    Slot(usize),
    Held(Held),
}

#[derive(Clone, Copy)]
struct Held {
    frame: usize,
    shape: (usize, usize),
    entries: usize,
}

/// The stack in parts, each for the largest matrix.
struct Frames<'s> {
    parts: [&'s mut [u32]; FRAMES],
    is_free: [bool; FRAMES],
}

impl<'s> Frames<'s> {
    fn new(stack: &'s mut [u32]) -> Self {
        let mut parts = stack.chunks_exact_mut(MAX_WORDS);
        let parts = std::array::from_fn(|_| parts.next().expect("the stack has room for all"));
        Frames { parts, is_free: [true; FRAMES] }
    }

    /// A free part is taken out, to be put back.
    fn take(&mut self) -> (usize, &'s mut [u32]) {
        let frame = self.is_free.iter().position(|&free| free).expect("there are as many as are needed");
        self.is_free[frame] = false;
        (frame, std::mem::take(&mut self.parts[frame]))
    }

    fn release(&mut self, value: Value) {
        if let Value::Held(held) = value {
            self.is_free[held.frame] = true;
        }
    }

    /// A result, which starts at revision 0.
    fn matrix(&self, Held { frame, shape: (rows, cols), entries }: Held) -> Matrix<'_> {
        let (starts, columns, values) = Output::sections(self.parts[frame], rows, entries);
        Matrix { revision: 0, cols, starts, columns, values }
    }
}

/// A formula, of which `text` is still to be worked out.
struct Evaluation<'a, 'f, 's> {
    text: &'a [u8],
    store: Store<'a>,
    monoid: BinaryOp,
    op: BinaryOp,
    frames: &'f mut Frames<'s>,
}

enum Step {
    Copy,
    Product,
    Union,
}

impl Evaluation<'_, '_, '_> {
    /// The value of the whole text.
    fn result(mut self) -> Result<Held> {
        match self.sum()? {
            Value::Held(held) => Ok(held),
            slot => self.step(Step::Copy, slot, slot),
        }
    }

    fn sum(&mut self) -> Result<Value> {
        let mut sum = self.term()?;
        while self.skips(b'+') {
            let term = self.term()?;
            sum = Value::Held(self.step(Step::Union, sum, term)?);
        }
        Ok(sum)
    }

    fn term(&mut self) -> Result<Value> {
        let mut term = self.factor()?;
        while self.skips(b'*') {
            let factor = self.factor()?;
            term = Value::Held(self.step(Step::Product, term, factor)?);
        }
        Ok(term)
    }

    fn factor(&mut self) -> Result<Value> {
        if self.skips(b'(') {
            let sum = self.sum();
            self.skips(b')');
            return sum;
        }
        let (&digit, rest) = self.text.split_first().expect("a factor begins with a bracket or is a digit");
        self.text = rest;
        Ok(Value::Slot(slot(digit)))
    }

    /// Whether the text goes on with a byte, which is passed over then.
    fn skips(&mut self, byte: u8) -> bool {
        let rest = self.text.strip_prefix(&[byte]);
        self.text = rest.unwrap_or(self.text);
        rest.is_some()
    }

    fn matrix(&self, value: Value) -> Matrix<'_> {
        match value {
            Value::Slot(slot) => self.store.matrix(slot).expect("the slot is not empty"),
            Value::Held(held) => self.frames.matrix(held),
        }
    }

    /// A step's result in a free frame; those of its operands are free afterwards. Refused by 8 and 10.
    fn step(&mut self, step: Step, x: Value, y: Value) -> Result<Held> {
        let (frame, part) = self.frames.take();
        let (monoid, op, a, b) = (self.monoid, self.op, self.matrix(x), self.matrix(y));
        let (agree, shape) = match step {
            Step::Product => (a.cols == b.rows(), (a.rows(), b.cols)),
            Step::Copy | Step::Union => (a.shape() == b.shape(), a.shape()),
        };
        ensure(agree, Refusal::InvalidShape)?;
        let entries = match step {
            Step::Copy => rows(part, shape, |i, t| a.row(i).iter().for_each(|(j, value)| t.push(j, value))),
            Step::Product => {
                let mut dense = DenseRow::new();
                rows(part, shape, |i, t| product_row(monoid, op, a.row(i), b, &mut dense, t))
            }
            Step::Union => rows(part, shape, |i, t| union_row(monoid, a.row(i), b.row(i), t)),
        }?;
        self.frames.parts[frame] = part;
        [x, y].into_iter().for_each(|value| self.frames.release(value));
        Ok(Held { frame, shape, entries })
    }
}

/// The rows of a matrix of some shape, to a frame. How many entries they have.
fn rows(part: &mut [u32], (rows, cols): (usize, usize), mut row: impl FnMut(usize, &mut RowBuffer)) -> Result<usize> {
    let mut output = Output::new(part);
    let mut t = RowBuffer::new();
    for i in 0..rows {
        t.clear();
        row(i, &mut t);
        output.push_row(t.row())?;
        output.end_row();
    }
    Ok(output.finish(0, cols).entries())
}
