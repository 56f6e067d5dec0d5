//! Operators, by the numbers and names of the GraphBLAS operators they are.

use crate::Error;
use std::fmt;
use std::str::FromStr;

/// An enum of operators, each with its number and its name.
macro_rules! operators {
    ($(#[$about:meta])* $name:ident { $($(#[$case_about:meta])* $case:ident = $number:literal $text:literal,)* }) => {
        $(#[$about])*
        #[derive(Clone, Copy, Debug, PartialEq, Eq, Hash)]
        pub enum $name {
            $($(#[$case_about])* $case = $number,)*
        }

        impl $name {
            /// All of them, in the order of their numbers.
            pub const ALL: &'static [$name] = &[$($name::$case),*];

            /// The number by which the library knows it.
            pub const fn number(self) -> u32 {
                self as u32
            }

            /// The name, in capitals.
            pub const fn name(self) -> &'static str {
                match self {
                    $($name::$case => $text,)*
                }
            }
        }

        /// The name, in capitals.
        impl fmt::Display for $name {
            fn fmt(&self, f: &mut fmt::Formatter<'_>) -> fmt::Result {
                f.pad(self.name())
            }
        }

        /// By the name, in capitals or not. Any other text is `Error::UnknownOperator`.
        impl FromStr for $name {
            type Err = Error;

            fn from_str(text: &str) -> Result<$name, Error> {
                let named = |op: &&$name| op.name().eq_ignore_ascii_case(text);
                $name::ALL.iter().find(named).copied().ok_or(Error::UnknownOperator)
            }
        }
    };
}

operators! {
    /// A binary operator on x and y. As an accumulator it takes the old value as x and the new one as y.
    ///
    /// ```
    /// use ostrubel::BinaryOp;
    ///
    /// assert_eq!("max".parse(), Ok(BinaryOp::Max));
    /// assert_eq!(BinaryOp::Max.name(), "MAX");
    /// ```
    BinaryOp {
        /// x
        First = 0 "FIRST",
        /// y
        Second = 1 "SECOND",
        /// 1
        Oneb = 2 "ONEB",
        /// x + y, wrapping
        Plus = 3 "PLUS",
        /// x - y, wrapping
        Minus = 4 "MINUS",
        /// x times y, wrapping
        Times = 5 "TIMES",
        /// the smaller of the two
        Min = 6 "MIN",
        /// the larger of the two
        Max = 7 "MAX",
    }
}

operators! {
    /// A binary operator that adds up: the products of `mxm` and `vxm`, and the values that are reduced.
    Monoid {
        /// the sum, wrapping
        Plus = 3 "PLUS",
        /// the product, wrapping
        Times = 5 "TIMES",
        /// the smallest
        Min = 6 "MIN",
        /// the largest
        Max = 7 "MAX",
    }
}

operators! {
    /// An operator on one value.
    UnaryOp {
        /// x
        Identity = 0 "IDENTITY",
        /// -x, wrapping: that of `i32::MIN` is `i32::MIN`
        Ainv = 1 "AINV",
        /// x without its sign; `i32::MIN` stays
        Abs = 2 "ABS",
        /// 1 where x is 0, else 0
        Lnot = 3 "LNOT",
        /// 1
        One = 4 "ONE",
    }
}

operators! {
    /// An operator on an entry's row i and column j, those of the input as transposed, and a scalar s.
    IndexUnaryOp {
        /// i + s, wrapping
        RowIndex = 0 "ROWINDEX",
        /// j + s, wrapping
        ColIndex = 1 "COLINDEX",
        /// j - i + s, wrapping
        DiagIndex = 2 "DIAGINDEX",
    }
}

/// What `apply` does to every entry: one of four kinds, each with its operator.
///
/// As text it is the operator's name, in capitals or not, with the scalar before it or behind it; that of an index
/// operator may be left out and is then 0.
///
/// ```
/// use ostrubel::{ApplyOp, BinaryOp, Error, IndexUnaryOp, UnaryOp};
///
/// assert_eq!("abs".parse(), Ok(ApplyOp::Unary(UnaryOp::Abs)));
/// assert_eq!("minus 15".parse(), Ok(ApplyOp::ScalarSecond(BinaryOp::Minus, 15)));
/// assert_eq!("15 minus".parse(), Ok(ApplyOp::ScalarFirst(15, BinaryOp::Minus)));
/// assert_eq!("colindex".parse(), Ok(ApplyOp::Index(IndexUnaryOp::ColIndex, 0)));
/// assert_eq!("minus".parse::<ApplyOp>(), Err(Error::UnknownOperator));
/// assert_eq!(ApplyOp::Index(IndexUnaryOp::RowIndex, -1).to_string(), "ROWINDEX -1");
/// ```
#[derive(Clone, Copy, Debug, PartialEq, Eq, Hash)]
pub enum ApplyOp {
    /// A unary operator.
    Unary(UnaryOp),
    /// A binary operator with the scalar as x.
    ScalarFirst(i32, BinaryOp),
    /// A binary operator with the scalar as y.
    ScalarSecond(BinaryOp, i32),
    /// An operator on the entry's row and column, with a scalar.
    Index(IndexUnaryOp, i32),
}

impl ApplyOp {
    /// The kind, the operator and the scalar, as numbers.
    pub(crate) const fn numbers(self) -> [u32; 3] {
        match self {
            ApplyOp::Unary(op) => [0, op.number(), 0],
            ApplyOp::ScalarFirst(scalar, op) => [1, op.number(), scalar as u32],
            ApplyOp::ScalarSecond(op, scalar) => [2, op.number(), scalar as u32],
            ApplyOp::Index(op, scalar) => [3, op.number(), scalar as u32],
        }
    }
}

/// The operator's name in capitals, with the scalar where it has one.
impl fmt::Display for ApplyOp {
    fn fmt(&self, f: &mut fmt::Formatter<'_>) -> fmt::Result {
        match self {
            ApplyOp::Unary(op) => write!(f, "{op}"),
            ApplyOp::ScalarFirst(scalar, op) => write!(f, "{scalar} {op}"),
            ApplyOp::ScalarSecond(op, scalar) => write!(f, "{op} {scalar}"),
            ApplyOp::Index(op, scalar) => write!(f, "{op} {scalar}"),
        }
    }
}

/// The operator, with its scalar before or behind. Any other text is `Error::UnknownOperator`.
impl FromStr for ApplyOp {
    type Err = Error;

    fn from_str(text: &str) -> Result<ApplyOp, Error> {
        let words: Vec<&str> = text.split_whitespace().collect();
        match words[..] {
            [op] => op.parse().map(ApplyOp::Unary).or_else(|_| Ok(ApplyOp::Index(op.parse()?, 0))),
            [first, second] => match (first.parse(), second.parse()) {
                (Ok(scalar), _) => Ok(ApplyOp::ScalarFirst(scalar, second.parse()?)),
                (_, Ok(scalar)) => {
                    let binary = first.parse().map(|op| ApplyOp::ScalarSecond(op, scalar));
                    binary.or_else(|_| Ok(ApplyOp::Index(first.parse()?, scalar)))
                }
                _ => Err(Error::UnknownOperator),
            },
            _ => Err(Error::UnknownOperator),
        }
    }
}

/// Which entries `select` keeps: a condition with a scalar s. The value is held against s; or the column against the row
/// plus s, both of the input as transposed, and the sum exact.
///
/// ```
/// use ostrubel::SelectOp;
///
/// assert_eq!(SelectOp::named("valuege", -3), Ok(SelectOp::AtLeast(-3)));
/// assert_eq!(SelectOp::LowerTriangle(0).name(), "TRIL");
/// ```
#[derive(Clone, Copy, Debug, PartialEq, Eq, Hash)]
pub enum SelectOp {
    /// The value is s.
    Equal(i32),
    /// The value is not s.
    NotEqual(i32),
    /// The value is less than s.
    Less(i32),
    /// The value is at most s.
    AtMost(i32),
    /// The value is greater than s.
    Greater(i32),
    /// The value is at least s.
    AtLeast(i32),
    /// The column is at most the row plus s.
    LowerTriangle(i32),
    /// The column is at least the row plus s.
    UpperTriangle(i32),
}

impl SelectOp {
    /// All of them with the scalar 0, in the order of their numbers.
    pub const ALL: &'static [SelectOp] = &[
        SelectOp::Equal(0),
        SelectOp::NotEqual(0),
        SelectOp::Less(0),
        SelectOp::AtMost(0),
        SelectOp::Greater(0),
        SelectOp::AtLeast(0),
        SelectOp::LowerTriangle(0),
        SelectOp::UpperTriangle(0),
    ];

    /// The condition of a name, in capitals or not, with its scalar.
    ///
    /// # Errors
    ///
    /// `UnknownOperator` for any other text.
    pub fn named(text: &str, scalar: i32) -> Result<SelectOp, Error> {
        let named = |op: &&SelectOp| op.name().eq_ignore_ascii_case(text);
        SelectOp::ALL.iter().find(named).map(|op| op.with_scalar(scalar)).ok_or(Error::UnknownOperator)
    }

    /// The name of the GraphBLAS operator, in capitals.
    pub const fn name(self) -> &'static str {
        match self {
            SelectOp::Equal(_) => "VALUEEQ",
            SelectOp::NotEqual(_) => "VALUENE",
            SelectOp::Less(_) => "VALUELT",
            SelectOp::AtMost(_) => "VALUELE",
            SelectOp::Greater(_) => "VALUEGT",
            SelectOp::AtLeast(_) => "VALUEGE",
            SelectOp::LowerTriangle(_) => "TRIL",
            SelectOp::UpperTriangle(_) => "TRIU",
        }
    }

    /// The number by which the library knows it.
    pub const fn number(self) -> u32 {
        self.numbers().0
    }

    /// The same condition with another scalar.
    pub const fn with_scalar(self, scalar: i32) -> SelectOp {
        match self {
            SelectOp::Equal(_) => SelectOp::Equal(scalar),
            SelectOp::NotEqual(_) => SelectOp::NotEqual(scalar),
            SelectOp::Less(_) => SelectOp::Less(scalar),
            SelectOp::AtMost(_) => SelectOp::AtMost(scalar),
            SelectOp::Greater(_) => SelectOp::Greater(scalar),
            SelectOp::AtLeast(_) => SelectOp::AtLeast(scalar),
            SelectOp::LowerTriangle(_) => SelectOp::LowerTriangle(scalar),
            SelectOp::UpperTriangle(_) => SelectOp::UpperTriangle(scalar),
        }
    }

    /// The number and the scalar, as numbers.
    pub(crate) const fn numbers(self) -> (u32, u32) {
        match self {
            SelectOp::Equal(s) => (0, s as u32),
            SelectOp::NotEqual(s) => (1, s as u32),
            SelectOp::Less(s) => (2, s as u32),
            SelectOp::AtMost(s) => (3, s as u32),
            SelectOp::Greater(s) => (4, s as u32),
            SelectOp::AtLeast(s) => (5, s as u32),
            SelectOp::LowerTriangle(s) => (6, s as u32),
            SelectOp::UpperTriangle(s) => (7, s as u32),
        }
    }
}

/// What a matrix product multiplies and adds up with.
///
/// As text it is the monoid and the operator with a dot between, in capitals or not.
///
/// ```
/// use ostrubel::{BinaryOp, Monoid, Semiring};
///
/// let shortest_path = Semiring::new(Monoid::Min, BinaryOp::Plus);
/// assert_eq!("min.plus".parse(), Ok(shortest_path));
/// assert_eq!(shortest_path.to_string(), "MIN.PLUS");
/// ```
#[derive(Clone, Copy, Debug, PartialEq, Eq, Hash)]
pub struct Semiring {
    /// What adds up.
    pub monoid: Monoid,
    /// What multiplies.
    pub op: BinaryOp,
}

impl Semiring {
    /// The semiring of a monoid and an operator.
    pub const fn new(monoid: Monoid, op: BinaryOp) -> Semiring {
        Semiring { monoid, op }
    }

    /// The monoid and the operator, as numbers.
    pub(crate) const fn numbers(self) -> (u32, u32) {
        (self.monoid.number(), self.op.number())
    }
}

/// The monoid, a dot and the operator, in capitals.
impl fmt::Display for Semiring {
    fn fmt(&self, f: &mut fmt::Formatter<'_>) -> fmt::Result {
        write!(f, "{}.{}", self.monoid, self.op)
    }
}

/// The monoid, a dot and the operator, in capitals or not. Any other text is `Error::UnknownOperator`.
impl FromStr for Semiring {
    type Err = Error;

    fn from_str(text: &str) -> Result<Semiring, Error> {
        let (monoid, op) = text.split_once('.').ok_or(Error::UnknownOperator)?;
        Ok(Semiring::new(monoid.parse()?, op.parse()?))
    }
}
