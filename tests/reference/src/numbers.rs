//! Operators 1 to 7 on integers, worked out exactly in 128 bits and only then fitted to 64.

use crate::answer::{OVERFLOW, ZERO_DIVISOR};
use std::cmp::Ordering;

/// The result, or 44 before 43. Operators above 7 are not for two integers; the callers know.
pub fn operate(operator: u8, left: i64, right: i64) -> Result<i64, u32> {
    let (left, right) = (i128::from(left), i128::from(right));
    if matches!(operator, 4 | 5) && right == 0 {
        return Err(ZERO_DIVISOR);
    }
    let exact = match operator {
        1 => left + right,
        2 => left - right,
        3 => left * right,
        4 => left / right,
        5 => nearest(left, right),
        6 => i128::from(left <= right),
        _ => i128::from(left == right),
    };
    i64::try_from(exact).map_err(|_| OVERFLOW)
}

/// 02 §1: "the nearest whole number, but an exact half now goes to the even one". The quotient with a remainder of 0 or
/// more and its neighbour on the exact quotient's other side, held against each other.
fn nearest(left: i128, right: i128) -> i128 {
    let here = left.div_euclid(right);
    let there = here + right.signum();
    match (2 * left.rem_euclid(right)).cmp(&right.abs()) {
        Ordering::Less => here,
        Ordering::Greater => there,
        Ordering::Equal if here % 2 == 0 => here,
        Ordering::Equal => there,
    }
}
