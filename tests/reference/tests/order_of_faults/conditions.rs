//! Fuel and conditions.

use crate::programs::{both, ends, zero_divisor};
use reference::builder::Builder;
use reference::Answer;

#[test]
fn fuel_goes_before_the_condition() {
    let mut b = Builder::source();
    let condition = zero_divisor(&mut b);
    let skip = b.skip();
    let turns = u32::from(b.while_do(condition, skip));
    let end = |number, fuel| Answer::ending(number, turns, fuel, 1021);
    assert_eq!(both(&b, 0).0, end(32, 0));
    assert_eq!(both(&b, 1).0, end(44, 0));
    assert_eq!(both(&b, u32::MAX).0, end(44, u32::MAX - 1));
}

#[test]
fn a_test_that_would_be_false_costs_fuel_too() {
    let mut b = Builder::source();
    let never = b.literal(0);
    let skip = b.skip();
    let turns = u32::from(b.while_do(never, skip));
    let end = |number, record, fuel| Answer::ending(number, record, fuel, 1021);
    assert_eq!(both(&b, 0).0, end(32, turns, 0));
    assert_eq!(both(&b, 1).0, end(0, 0, 0));
    assert_eq!(both(&b, 7).0, end(0, 0, 6));
}

#[test]
fn nothing_but_a_while_test_costs_fuel() {
    let mut b = Builder::source();
    let new = b.new_in(1, 2);
    let free = b.free_variable(1);
    let store = b.take_literal(1, 5);
    let truth = b.compare_literals(7, 1, 1);
    let assertion = b.assert(truth);
    let condition = b.literal(1);
    let (then, otherwise) = (b.skip(), b.skip());
    let branch = b.if_else(condition, then, otherwise);
    let body = b.sequence(&[new, free, store, assertion, branch]);
    b.let_in(1, body);
    assert_eq!(both(&b, 5).0, Answer::ending(0, 0, 5, 1021));
}

#[test]
fn a_condition_takes_an_integer_and_names_its_own_statement() {
    ends(40, |b| {
        let pointer = b.address_of_variable(0);
        let then = b.skip();
        let otherwise = b.skip();
        b.if_else(pointer, then, otherwise)
    });
    ends(40, |b| {
        let pointer = b.read_variable(0);
        let body = b.skip();
        b.while_do(pointer, body)
    });
    // Any integer but 0 is true.
    ends(44, |b| {
        let condition = b.literal(-8);
        let place = b.variable(0);
        let value = zero_divisor(b);
        let then = b.take(place, value);
        let otherwise = b.skip();
        b.if_else(condition, then, otherwise);
        then
    });
}
