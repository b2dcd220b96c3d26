//! Integer arithmetic and sets, by document 01; what fails says why.

use super::Why;

pub const NUMERIC_ERROR: i64 = -101;
pub const SYSTEM_ERROR: i64 = -102;
pub const RANGE_ERROR: i64 = -103;
pub const UNDEFINED_ERROR: i64 = -104;
pub const CASE_ERROR: i64 = -105;

/// A result in the integers.
pub fn integer(value: i64) -> Result<i64, Why> {
    match i32::try_from(value) {
        Ok(_) => Ok(value),
        Err(_) => Err(Why::Past(Some(value))),
    }
}

/// A two-sided operator on ordinals.
pub fn ordinals(operator: &'static str, left: i64, right: i64) -> Result<i64, Why> {
    match operator {
        "+" => integer(left + right),
        "-" => integer(left - right),
        "*" => integer(left * right),
        "**" => power(left, right),
        "div" if right == 0 => Err(Why::Divisor(operator, right)),
        "div" => integer(left / right),
        "mod" if right <= 0 => Err(Why::Divisor(operator, right)),
        "mod" => Ok(left.rem_euclid(right)),
        "=" => Ok(i64::from(left == right)),
        "<>" => Ok(i64::from(left != right)),
        "<" => Ok(i64::from(left < right)),
        "<=" => Ok(i64::from(left <= right)),
        ">" => Ok(i64::from(left > right)),
        ">=" => Ok(i64::from(left >= right)),
        "and" | "and_then" => Ok(left & right),
        "or" | "or_else" => Ok(left | right),
        _ => Ok(i64::from((0..32).contains(&left) && right >> left & 1 == 1)),
    }
}

/// A base of at least 2 in size leaves the integers after at most 31 products.
fn power(base: i64, exponent: i64) -> Result<i64, Why> {
    if exponent < 0 || (base == 0 && exponent == 0) {
        return Err(Why::Exponent(base, exponent));
    }
    match base {
        0 | 1 => Ok(base),
        -1 => Ok(if exponent % 2 == 0 { 1 } else { -1 }),
        _ => (0..exponent).try_fold(1, |product, _| integer(product * base)).map_err(|_| Why::Past(None)),
    }
}

/// A two-sided operator on two sets.
pub fn sets(operator: &str, left: i64, right: i64) -> i64 {
    match operator {
        "+" => left | right,
        "-" => left & !right,
        "*" => left & right,
        "=" => i64::from(left == right),
        "<>" => i64::from(left != right),
        "<=" => i64::from(left & !right == 0),
        _ => i64::from(right & !left == 0),
    }
}

/// The members of a set, rising.
pub fn members(set: i64) -> impl DoubleEndedIterator<Item = i64> {
    (0..32).filter(move |member| set >> member & 1 == 1)
}
