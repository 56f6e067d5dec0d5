//! The operators by their numbers.

use crate::fault::Fault;

pub fn is_binary(number: u32) -> bool {
    number <= 7
}

pub fn is_unary(number: u32) -> bool {
    number <= 4
}

pub fn is_index_unary(number: u32) -> bool {
    number <= 2
}

pub fn is_monoid(number: u32, fault: Fault) -> bool {
    matches!(number, 3 | 5 | 6 | 7) || fault == Fault::MonoidMinusAccepted && number == 4
}

/// Document 02, A4: the conditions of select are "numbered 0 to 7".
pub fn is_condition(number: u32) -> bool {
    number <= 7
}

/// An exact value brought back modulo 2^32 into the signed range.
fn wrap(exact: i64) -> i32 {
    const MODULUS: i64 = 1 << 32;
    let word = exact.rem_euclid(MODULUS);
    let signed = if word >= MODULUS / 2 { word - MODULUS } else { word };
    signed as i32
}

fn wrap_or_stop(exact: i64, stop: bool) -> i32 {
    if stop {
        exact.clamp(i64::from(i32::MIN), i64::from(i32::MAX)) as i32
    } else {
        wrap(exact)
    }
}

/// The value of a known binary operator; an unknown one is refused before.
pub fn binary(number: u32, x: i32, y: i32, fault: Fault) -> i32 {
    let (wide_x, wide_y) = (i64::from(x), i64::from(y));
    match number {
        0 if fault == Fault::FirstIsSecond => y,
        0 => x,
        1 => y,
        2 if fault == Fault::OnebIsFirst => x,
        2 => 1,
        3 => wrap_or_stop(wide_x + wide_y, fault == Fault::PlusSaturates),
        4 if fault == Fault::MinusSwapped => wrap(wide_y - wide_x),
        4 => wrap_or_stop(wide_x - wide_y, fault == Fault::MinusSaturates),
        5 => wrap_or_stop(wide_x * wide_y, fault == Fault::TimesSaturates),
        6 if fault == Fault::MinUnsigned => (x as u32).min(y as u32) as i32,
        6 => x.min(y),
        7 if fault == Fault::MaxUnsigned => (x as u32).max(y as u32) as i32,
        7 => x.max(y),
        _ => unreachable!("binary operator {number}"),
    }
}

pub fn unary(number: u32, x: i32, fault: Fault) -> i32 {
    let negative = -i64::from(x);
    match number {
        0 => x,
        1 => wrap_or_stop(negative, fault == Fault::AinvSaturates),
        2 if x < 0 => wrap_or_stop(negative, fault == Fault::AbsSaturates),
        2 => x,
        3 if fault == Fault::LnotOfNegative => i32::from(x <= 0),
        3 => i32::from(x == 0),
        4 => 1,
        _ => unreachable!("unary operator {number}"),
    }
}

pub fn index_unary(number: u32, i: u32, j: u32, scalar: i32, fault: Fault) -> i32 {
    let (i, j, s) = (i64::from(i), i64::from(j), i64::from(scalar));
    match number {
        0 => wrap(i + s),
        1 => wrap(j + s),
        2 if fault == Fault::DiagIndexParse => wrap(j - (i + s)),
        2 => wrap(j - i + s),
        _ => unreachable!("index operator {number}"),
    }
}

/// Document 02, A4: "equal, not equal, less, at most, greater, at least (value against s), lower triangle (j at most i+s)
/// and upper triangle (j at least i+s), the sums exact and not wrapped".
pub fn selects(number: u32, x: i32, i: u32, j: u32, scalar: i32, fault: Fault) -> bool {
    let (row, col) = if fault == Fault::TriangleTurned { (j, i) } else { (i, j) };
    let exact = i64::from(row) + i64::from(scalar);
    let sum = if fault == Fault::TriangleSumWraps { i64::from(wrap(exact)) } else { exact };
    let col = i64::from(col);
    let (x, scalar) = match fault {
        Fault::SelectUnsigned => (i64::from(x as u32), i64::from(scalar as u32)),
        Fault::SelectOperandsSwapped => (i64::from(scalar), i64::from(x)),
        _ => (i64::from(x), i64::from(scalar)),
    };
    match number {
        0 => x == scalar,
        1 => x != scalar,
        2 if fault == Fault::LessIsAtMost => x <= scalar,
        2 => x < scalar,
        3 if fault == Fault::AtMostIsLess => x < scalar,
        3 => x <= scalar,
        4 => x > scalar,
        5 => x >= scalar,
        6 if fault == Fault::TriangleStrict => col < sum,
        6 => col <= sum,
        7 => col >= sum,
        _ => unreachable!("condition {number}"),
    }
}

/// What a monoid gives for no values.
pub fn identity(monoid: u32, fault: Fault) -> i32 {
    match monoid {
        3 => 0,
        4 if fault == Fault::MonoidMinusAccepted => 0,
        5 => 1,
        6 if fault == Fault::ExtremesExchanged => i32::MIN,
        7 if fault == Fault::ExtremesExchanged => i32::MAX,
        6 => i32::MAX,
        7 => i32::MIN,
        4 if fault == Fault::MonoidMinusAccepted => 0,
        _ => unreachable!("monoid {monoid}"),
    }
}
