//! One operation on numbers, for the maker and for the plain run: exact, or a stop.

use crate::script::*;

/// A result above 2147483647.
pub const ABOVE: u8 = 24;
pub const ZERO_DIVISOR: u8 = 25;
/// A result below -2147483648.
pub const BELOW: u8 = 29;

/// The result, or the number of the stop.
pub fn operate(operator: u16, left: i32, right: i32) -> Result<i32, u8> {
    // No product of two 32-bit numbers leaves 64 bits.
    let (left, right) = (left as i64, right as i64);
    match operator {
        PLUS => in_range(left + right),
        MINUS => in_range(left - right),
        TIMES => in_range(left * right),
        DIVIDE if right == 0 => Err(ZERO_DIVISOR),
        DIVIDE => in_range(left / right),
        EQUAL => Ok((left == right).into()),
        _ => Ok((left < right).into()),
    }
}

fn in_range(exact: i64) -> Result<i32, u8> {
    if exact > i32::MAX as i64 {
        Err(ABOVE)
    } else if exact < i32::MIN as i64 {
        Err(BELOW)
    } else {
        Ok(exact as i32)
    }
}
