//! The options of an operation.

use crate::calls::OptionNumbers;
use crate::{BinaryOp, Descriptor};

/// How an operation writes its result T into the output C: mask, accumulator and flags, none of them at first.
///
/// With an accumulator Z is the union of old C and T under it, else Z is T. Inside the mask C takes Z; outside it keeps
/// its entry, or loses it under `replace`. A position is inside where the mask has an entry other than 0; with no mask
/// every position is inside.
///
/// The mask `M` is a `&Matrix` in the operations of `Matrix`, and a slot (`usize`) in those of `Store`.
///
/// ```
/// use ostrubel::{ApplyOp, Error, Matrix, Options, UnaryOp};
///
/// let mut c = Matrix::from_triples(1, 4, [(0, 0, 1), (0, 1, 2), (0, 2, 3)])?;
/// let t = Matrix::from_triples(1, 4, [(0, 1, 9), (0, 3, 9)])?;
/// let mask = Matrix::from_triples(1, 4, [(0, 0, 1), (0, 1, 0), (0, 3, 5)])?;
///
/// c.apply(ApplyOp::Unary(UnaryOp::Identity), &t, &Options::new().mask(&mask).replace())?;
/// assert_eq!(c.to_triples(), [(0, 3, 9)]);
/// # Ok::<(), Error>(())
/// ```
#[derive(Clone, Copy, Debug, PartialEq, Eq, Hash)]
pub struct Options<M> {
    pub(crate) mask: Option<M>,
    accumulator: Option<BinaryOp>,
    descriptor: Descriptor,
}

/// The same as `Options::new`.
impl<M> Default for Options<M> {
    fn default() -> Options<M> {
        Options::new()
    }
}

impl<M> Options<M> {
    /// No mask, no accumulator and no flags.
    #[must_use]
    pub const fn new() -> Options<M> {
        Options { mask: None, accumulator: None, descriptor: Descriptor::new() }
    }

    /// A mask of the output's shape.
    #[must_use]
    pub fn mask(mut self, mask: M) -> Options<M> {
        self.mask = Some(mask);
        self
    }

    /// An accumulator: it gets the old value first and the new one second.
    #[must_use]
    pub fn accumulate(mut self, op: BinaryOp) -> Options<M> {
        self.accumulator = Some(op);
        self
    }

    /// The flags, in place of those set before.
    #[must_use]
    pub fn descriptor(mut self, descriptor: Descriptor) -> Options<M> {
        self.descriptor = descriptor;
        self
    }

    /// Adds [`Descriptor::replace`].
    #[must_use]
    pub fn replace(self) -> Options<M> {
        let descriptor = self.descriptor.replace();
        self.descriptor(descriptor)
    }

    /// Adds [`Descriptor::complement`].
    #[must_use]
    pub fn complement(self) -> Options<M> {
        let descriptor = self.descriptor.complement();
        self.descriptor(descriptor)
    }

    /// Adds [`Descriptor::structural`].
    #[must_use]
    pub fn structural(self) -> Options<M> {
        let descriptor = self.descriptor.structural();
        self.descriptor(descriptor)
    }

    /// Adds [`Descriptor::transpose_first`].
    #[must_use]
    pub fn transpose_first(self) -> Options<M> {
        let descriptor = self.descriptor.transpose_first();
        self.descriptor(descriptor)
    }

    /// Adds [`Descriptor::transpose_second`].
    #[must_use]
    pub fn transpose_second(self) -> Options<M> {
        let descriptor = self.descriptor.transpose_second();
        self.descriptor(descriptor)
    }

    pub(crate) fn numbers(&self) -> OptionNumbers {
        OptionNumbers {
            flags: self.descriptor.flags(),
            has_mask: u32::from(self.mask.is_some()),
            has_accumulator: u32::from(self.accumulator.is_some()),
            accumulator: self.accumulator.map_or(0, BinaryOp::number),
        }
    }
}
