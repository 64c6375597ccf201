//! Faults in expressions: A, B, then the operation with 40, 44, 43.

use crate::programs::{ends, overflow, with_expression, zero_divisor};
use reference::builder::Builder;

#[test]
fn a_wrong_sort_comes_before_a_zero_divisor() {
    ends(40, |b| {
        with_expression(b, |b| {
            let pointer = b.address_of_variable(0);
            let zero = b.literal(0);
            b.operator(4, pointer, zero)
        })
    });
}

#[test]
fn a_zero_divisor_comes_before_an_overflow() {
    ends(44, |b| {
        with_expression(b, |b| {
            let least = b.literal(i64::MIN);
            let zero = b.literal(0);
            b.operator(5, least, zero)
        })
    });
}

#[test]
fn a_is_worked_out_before_b_and_b_before_the_operation() {
    let order = |first: fn(&mut Builder) -> u16, second: fn(&mut Builder) -> u16| {
        move |b: &mut Builder| {
            with_expression(b, |b| {
                let left = first(b);
                let right = second(b);
                b.operator(1, left, right)
            })
        }
    };
    ends(44, order(zero_divisor, overflow));
    ends(43, order(overflow, zero_divisor));
    ends(41, order(|b| b.read_variable(1), zero_divisor));
    ends(44, order(zero_divisor, |b| b.read_variable(1)));
}

#[test]
fn the_sorts_are_looked_at_after_both_operands() {
    ends(41, |b| {
        with_expression(b, |b| {
            let pointer = b.address_of_variable(0);
            let undefined = b.read_variable(1);
            b.operator(4, pointer, undefined)
        })
    });
    ends(41, |b| {
        with_expression(b, |b| {
            let integer = b.literal(1);
            let undefined = b.read_variable(1);
            b.shift(integer, undefined)
        })
    });
}

#[test]
fn equality_of_an_integer_and_a_pointer_is_40_either_way_round() {
    for pointer_first in [true, false] {
        ends(40, |b| {
            with_expression(b, |b| {
                let pointer = b.address_of_variable(0);
                let integer = b.literal(0);
                match pointer_first {
                    true => b.operator(7, pointer, integer),
                    false => b.operator(7, integer, pointer),
                }
            })
        });
    }
}

#[test]
fn only_equality_takes_two_pointers() {
    for operator in 1..=6 {
        ends(40, |b| {
            with_expression(b, |b| {
                let left = b.address_of_variable(0);
                let right = b.address_of_variable(0);
                b.operator(operator, left, right)
            })
        });
    }
    ends(0, |b| {
        with_expression(b, |b| {
            let left = b.address_of_variable(0);
            let right = b.address_of_variable(0);
            b.operator(7, left, right)
        });
        0
    });
}

#[test]
fn a_shift_takes_a_pointer_and_an_integer_and_may_only_leave_the_block() {
    ends(40, |b| {
        with_expression(b, |b| {
            let integer = b.literal(0);
            let by = b.literal(1);
            b.shift(integer, by)
        })
    });
    ends(40, |b| {
        with_expression(b, |b| {
            let pointer = b.address_of_variable(0);
            let by = b.address_of_variable(0);
            b.shift(pointer, by)
        })
    });
    ends(43, |b| {
        with_expression(b, |b| {
            let outside = b.shifted_variable(0, i64::MAX);
            let one = b.literal(1);
            b.shift(outside, one)
        })
    });
    ends(0, |b| {
        with_expression(b, |b| b.shifted_variable(0, i64::MIN));
        0
    });
}
