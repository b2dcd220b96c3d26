//! Integer arithmetic and sets, by document 01. An error is the number of an exception.

use crate::syntax::Operator;

pub const NUMERIC_ERROR: i64 = -101;
pub const SYSTEM_ERROR: i64 = -102;
pub const RANGE_ERROR: i64 = -103;
pub const UNDEFINED_ERROR: i64 = -104;
pub const CASE_ERROR: i64 = -105;

/// A result in the integers, else Numeric_Error.
pub fn integer(value: i64) -> Result<i64, i64> {
    match i32::try_from(value) {
        Ok(_) => Ok(value),
        Err(_) => Err(NUMERIC_ERROR),
    }
}

/// A value between two bounds, else Range_Error.
pub fn within(value: i64, low: i64, high: i64) -> Result<i64, i64> {
    match (low..=high).contains(&value) {
        true => Ok(value),
        false => Err(RANGE_ERROR),
    }
}

/// A two-sided operator on ordinals, where both sides are worked out.
pub fn ordinals(operator: Operator, left: i64, right: i64) -> Result<i64, i64> {
    use Operator::*;
    match operator {
        Add => integer(left + right),
        Subtract => integer(left - right),
        Multiply => integer(left * right),
        Power => power(left, right),
        Div if right == 0 => Err(NUMERIC_ERROR),
        Div => integer(left / right),
        Mod if right <= 0 => Err(NUMERIC_ERROR),
        Mod => Ok(left.rem_euclid(right)),
        Equal => Ok(i64::from(left == right)),
        Unequal => Ok(i64::from(left != right)),
        Less => Ok(i64::from(left < right)),
        LessEqual => Ok(i64::from(left <= right)),
        Greater => Ok(i64::from(left > right)),
        GreaterEqual => Ok(i64::from(left >= right)),
        And | AndThen => Ok(left & right),
        Or | OrElse => Ok(left | right),
        In => Ok(i64::from(is_member(left, right))),
    }
}

/// A base of at least 2 in size leaves the integers after at most 31 products.
fn power(base: i64, exponent: i64) -> Result<i64, i64> {
    if exponent < 0 || (base == 0 && exponent == 0) {
        return Err(NUMERIC_ERROR);
    }
    match base {
        0 | 1 => Ok(base),
        -1 => Ok(if exponent % 2 == 0 { 1 } else { -1 }),
        _ => (0..exponent).try_fold(1, |product, _| integer(product * base)),
    }
}

/// A two-sided operator on two sets.
pub fn sets(operator: Operator, left: i64, right: i64) -> i64 {
    use Operator::*;
    match operator {
        Add => left | right,
        Subtract => left & !right,
        Multiply => left & right,
        Equal => i64::from(left == right),
        Unequal => i64::from(left != right),
        LessEqual => i64::from(left & !right == 0),
        GreaterEqual => i64::from(right & !left == 0),
        _ => 0,
    }
}

/// Is an ordinal in a set? Outside 0 to 31 it is in none.
pub fn is_member(ordinal: i64, set: i64) -> bool {
    members(set).any(|member| member == ordinal)
}

/// The members of a set, rising.
pub fn members(set: i64) -> impl DoubleEndedIterator<Item = i64> {
    (0..32).filter(move |member| set >> member & 1 == 1)
}
