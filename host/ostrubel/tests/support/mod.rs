//! What several tests use.

use ostrubel::{BinaryOp, Descriptor, Options};

/// Options with the mask and the accumulator that there are.
pub fn options<M>(mask: Option<M>, accumulator: Option<BinaryOp>, descriptor: Descriptor) -> Options<M> {
    let mut options = Options::new().descriptor(descriptor);
    if let Some(mask) = mask {
        options = options.mask(mask);
    }
    if let Some(op) = accumulator {
        options = options.accumulate(op);
    }
    options
}
