//! Values, and the operators that take any sort of them.

use crate::answer::{NOT_LIVE, OVERFLOW, WRONG_SORT};
use crate::numbers;

#[derive(Debug, Clone, Copy, PartialEq, Eq)]
pub struct Pointer {
    pub name: u32,
    pub offset: i64,
}

/// "an integer, a pointer with its block name and offset, or undefined."
#[derive(Debug, Clone, Copy, PartialEq, Eq)]
pub enum Value {
    Undefined,
    Integer(i64),
    Pointer(Pointer),
}

impl Value {
    pub fn integer(self) -> Result<i64, u32> {
        match self {
            Value::Integer(integer) => Ok(integer),
            _ => Err(WRONG_SORT),
        }
    }

    pub fn pointer(self) -> Result<Pointer, u32> {
        match self {
            Value::Pointer(pointer) => Ok(pointer),
            _ => Err(WRONG_SORT),
        }
    }

    /// "Conditions are integers, true when not 0."
    pub fn truth(self) -> Result<bool, u32> {
        self.integer().map(|integer| integer != 0)
    }

    pub fn of_truth(truth: bool) -> Value {
        Value::Integer(i64::from(truth))
    }
}

/// A comparison of two pointers, and the kind of the record that asked for it.
#[derive(Debug, Clone, Copy, PartialEq, Eq)]
pub struct Compared {
    pub kind: u8,
    pub left: Pointer,
    pub right: Pointer,
}

/// Operators 1 to 8 on values already worked out: 40 first, then 47, 44, 43. `is_live` asks the memory that knows
/// whether a pointer's block is live.
pub fn operate(
    operator: u8,
    left: Value,
    right: Value,
    is_live: impl Fn(Pointer) -> bool,
) -> Result<Value, u32> {
    match (operator, left, right) {
        (7, Value::Pointer(left), Value::Pointer(right)) => equal(left, right, is_live),
        (8, _, _) => shift(left.pointer()?, right.integer()?).map(Value::Pointer),
        _ => numbers::operate(operator, left.integer()?, right.integer()?).map(Value::Integer),
    }
}

/// 02 §4: "a pointer into a dead block on either side ends 47", whatever the offsets.
fn equal(left: Pointer, right: Pointer, is_live: impl Fn(Pointer) -> bool) -> Result<Value, u32> {
    if !is_live(left) || !is_live(right) {
        return Err(NOT_LIVE);
    }
    Ok(Value::of_truth(left == right))
}

/// "A shift may leave the block", but its offset may not leave 64 bits.
fn shift(pointer: Pointer, by: i64) -> Result<Pointer, u32> {
    let offset = pointer.offset.checked_add(by).ok_or(OVERFLOW)?;
    Ok(Pointer { offset, ..pointer })
}
