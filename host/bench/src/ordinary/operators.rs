//! Operators on words, each a signed 32-bit number in two's complement.

#[derive(Clone, Copy, Debug)]
pub enum BinaryOp {
    First,
    Second,
    Oneb,
    Plus,
    Minus,
    Times,
    Min,
    Max,
}

impl BinaryOp {
    pub fn numbered(number: u32) -> Option<Self> {
        Some(match number {
            0 => BinaryOp::First,
            1 => BinaryOp::Second,
            2 => BinaryOp::Oneb,
            3 => BinaryOp::Plus,
            4 => BinaryOp::Minus,
            5 => BinaryOp::Times,
            6 => BinaryOp::Min,
            7 => BinaryOp::Max,
            _ => return None,
        })
    }

    /// The operator, where it is a monoid's.
    pub fn monoid(number: u32) -> Option<Self> {
        Self::numbered(number)
            .filter(|op| matches!(op, BinaryOp::Plus | BinaryOp::Times | BinaryOp::Min | BinaryOp::Max))
    }

    pub fn apply(self, x: u32, y: u32) -> u32 {
        match self {
            BinaryOp::First => x,
            BinaryOp::Second => y,
            BinaryOp::Oneb => 1,
            BinaryOp::Plus => x.wrapping_add(y),
            BinaryOp::Minus => x.wrapping_sub(y),
            BinaryOp::Times => x.wrapping_mul(y),
            BinaryOp::Min => (x as i32).min(y as i32) as u32,
            BinaryOp::Max => (x as i32).max(y as i32) as u32,
        }
    }

    /// What a monoid gives for no values. Of another operator it is not asked.
    pub fn identity(self) -> u32 {
        match self {
            BinaryOp::Times => 1,
            BinaryOp::Min => i32::MAX as u32,
            BinaryOp::Max => i32::MIN as u32,
            _ => 0,
        }
    }

    /// The operator where both are there; a lone value as it is.
    pub fn unite(self, x: Option<u32>, y: Option<u32>) -> Option<u32> {
        match (x, y) {
            (Some(x), Some(y)) => Some(self.apply(x, y)),
            (x, y) => x.or(y),
        }
    }
}

#[derive(Clone, Copy, Debug)]
pub enum UnaryOp {
    Identity,
    Ainv,
    Abs,
    Lnot,
    One,
}

impl UnaryOp {
    fn numbered(number: u32) -> Option<Self> {
        Some(match number {
            0 => UnaryOp::Identity,
            1 => UnaryOp::Ainv,
            2 => UnaryOp::Abs,
            3 => UnaryOp::Lnot,
            4 => UnaryOp::One,
            _ => return None,
        })
    }

    fn apply(self, x: u32) -> u32 {
        match self {
            UnaryOp::Identity => x,
            UnaryOp::Ainv => x.wrapping_neg(),
            UnaryOp::Abs => (x as i32).wrapping_abs() as u32,
            UnaryOp::Lnot => u32::from(x == 0),
            UnaryOp::One => 1,
        }
    }
}

#[derive(Clone, Copy, Debug)]
pub enum IndexOp {
    Row,
    Column,
    Diagonal,
}

impl IndexOp {
    fn numbered(number: u32) -> Option<Self> {
        Some(match number {
            0 => IndexOp::Row,
            1 => IndexOp::Column,
            2 => IndexOp::Diagonal,
            _ => return None,
        })
    }

    fn apply(self, i: u32, j: u32, scalar: u32) -> u32 {
        match self {
            IndexOp::Row => i.wrapping_add(scalar),
            IndexOp::Column => j.wrapping_add(scalar),
            IndexOp::Diagonal => j.wrapping_sub(i).wrapping_add(scalar),
        }
    }
}

/// An operator of one of the four kinds of apply.
#[derive(Clone, Copy, Debug)]
pub enum ApplyOp {
    Unary(UnaryOp),
    ScalarFirst(BinaryOp, u32),
    ScalarSecond(BinaryOp, u32),
    Index(IndexOp, u32),
}

impl ApplyOp {
    pub fn numbered(kind: u32, op: u32, scalar: u32) -> Option<Self> {
        Some(match kind {
            0 => ApplyOp::Unary(UnaryOp::numbered(op)?),
            1 => ApplyOp::ScalarFirst(BinaryOp::numbered(op)?, scalar),
            2 => ApplyOp::ScalarSecond(BinaryOp::numbered(op)?, scalar),
            3 => ApplyOp::Index(IndexOp::numbered(op)?, scalar),
            _ => return None,
        })
    }

    /// What becomes of x at row i and column j of the matrix as transposed.
    pub fn apply(self, x: u32, i: u32, j: u32) -> u32 {
        match self {
            ApplyOp::Unary(op) => op.apply(x),
            ApplyOp::ScalarFirst(op, scalar) => op.apply(scalar, x),
            ApplyOp::ScalarSecond(op, scalar) => op.apply(x, scalar),
            ApplyOp::Index(op, scalar) => op.apply(i, j, scalar),
        }
    }
}

/// A condition of select, with its scalar.
#[derive(Clone, Copy, Debug)]
pub enum SelectOp {
    Equal(u32),
    NotEqual(u32),
    Less(i32),
    AtMost(i32),
    Greater(i32),
    AtLeast(i32),
    Lower(i32),
    Upper(i32),
}

impl SelectOp {
    pub fn numbered(op: u32, scalar: u32) -> Option<Self> {
        let signed = scalar as i32;
        Some(match op {
            0 => SelectOp::Equal(scalar),
            1 => SelectOp::NotEqual(scalar),
            2 => SelectOp::Less(signed),
            3 => SelectOp::AtMost(signed),
            4 => SelectOp::Greater(signed),
            5 => SelectOp::AtLeast(signed),
            6 => SelectOp::Lower(signed),
            7 => SelectOp::Upper(signed),
            _ => return None,
        })
    }

    /// Whether x at row i and column j of the matrix as transposed is kept.
    pub fn keeps(self, x: u32, i: u32, j: u32) -> bool {
        let value = x as i32;
        let diagonal = |s: i32| i64::from(i) + i64::from(s);
        match self {
            SelectOp::Equal(s) => x == s,
            SelectOp::NotEqual(s) => x != s,
            SelectOp::Less(s) => value < s,
            SelectOp::AtMost(s) => value <= s,
            SelectOp::Greater(s) => value > s,
            SelectOp::AtLeast(s) => value >= s,
            SelectOp::Lower(s) => i64::from(j) <= diagonal(s),
            SelectOp::Upper(s) => i64::from(j) >= diagonal(s),
        }
    }
}
