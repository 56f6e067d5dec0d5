//! The flags of an operation.

const REPLACE: u32 = 1;
const COMPLEMENT: u32 = 2;
const STRUCTURAL: u32 = 4;
const TRANSPOSE_FIRST: u32 = 8;
const TRANSPOSE_SECOND: u32 = 16;

/// The flags of an operation: none at first, and each method adds one.
///
/// ```
/// use ostrubel::Descriptor;
///
/// assert_eq!(Descriptor::new().replace().structural().flags(), 5);
/// ```
#[derive(Clone, Copy, Debug, Default, PartialEq, Eq, Hash)]
pub struct Descriptor {
    flags: u32,
}

impl Descriptor {
    /// No flags.
    #[must_use]
    pub const fn new() -> Descriptor {
        Descriptor { flags: 0 }
    }

    /// Outside the mask the output loses its entries.
    #[must_use]
    pub const fn replace(self) -> Descriptor {
        self.with(REPLACE)
    }

    /// The mask is complemented. With no mask, no position is inside.
    #[must_use]
    pub const fn complement(self) -> Descriptor {
        self.with(COMPLEMENT)
    }

    /// An entry of the mask counts whatever its value, also 0.
    #[must_use]
    pub const fn structural(self) -> Descriptor {
        self.with(STRUCTURAL)
    }

    /// The first input is transposed. The vector of `vxm` never is.
    #[must_use]
    pub const fn transpose_first(self) -> Descriptor {
        self.with(TRANSPOSE_FIRST)
    }

    /// The second input is transposed.
    #[must_use]
    pub const fn transpose_second(self) -> Descriptor {
        self.with(TRANSPOSE_SECOND)
    }

    /// The sum of the flags, 0 to 31: replace 1, complement 2, structural 4, transpose first 8, transpose second 16.
    pub const fn flags(self) -> u32 {
        self.flags
    }

    const fn with(self, flag: u32) -> Descriptor {
        Descriptor { flags: self.flags | flag }
    }
}
