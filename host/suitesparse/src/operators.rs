//! The operators by Ostrubel's numbers. What SuiteSparse computes by each is said where it is not what its name says.

macro_rules! numbered {
    ($(#[$about:meta])* $name:ident { $($case:ident = $number:literal,)* }) => {
        $(#[$about])*
        #[derive(Clone, Copy, Debug, PartialEq, Eq)]
        pub enum $name {
            $($case = $number,)*
        }

        impl $name {
            pub const ALL: &'static [$name] = &[$($name::$case,)*];

            pub fn numbered(number: u32) -> Option<Self> {
                Self::ALL.iter().copied().find(|case| case.number() == number)
            }

            pub fn number(self) -> u32 {
                self as u32
            }
        }
    };
}

numbered!(
    /// Binary operators, also accumulators.
    Binary { First = 0, Second = 1, Oneb = 2, Plus = 3, Minus = 4, Times = 5, Min = 6, Max = 7, }
);
numbered!(
    Monoid { Plus = 3, Times = 5, Min = 6, Max = 7, }
);
numbered!(
    Unary { Identity = 0, Ainv = 1, Abs = 2, Lnot = 3, One = 4, }
);
numbered!(
    /// Index operators by SuiteSparse's rules: DIAGINDEX is j - (i + s).
    IndexUnary { RowIndex = 0, ColIndex = 1, DiagIndex = 2, }
);

numbered!(
    /// The conditions of select.
    Condition {
        ValueEq = 0,
        ValueNe = 1,
        ValueLt = 2,
        ValueLe = 3,
        ValueGt = 4,
        ValueGe = 5,
        Tril = 6,
        Triu = 7,
    }
);

/// What an apply does with each entry.
#[derive(Clone, Copy, Debug, PartialEq, Eq)]
pub enum Apply {
    Unary(Unary),
    ScalarFirst(Binary, i32),
    ScalarSecond(Binary, i32),
    IndexUnary(IndexUnary, i32),
}
