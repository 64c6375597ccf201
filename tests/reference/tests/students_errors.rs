//! The four errors students make: each program's outcome tells right from wrong.

use reference::builder::Builder;
use reference::host::{both, inputs, watched};

/// Number and statement of both runs of a source on inputs 7, 9.
fn end(source: &[u8]) -> (u32, u32) {
    let (answer, _) = both(source, &inputs(&[7, 9]), 10);
    (answer.number, answer.record)
}

#[test]
fn marking_after_the_store_by_reading_p_again_breaks_where_p_points_to_itself() {
    let mut b = Builder::target(4);
    let place = b.variable(1);
    let expression = b.address_of_variable(1);
    let aim = b.take(place, expression);
    let pointer = b.read_variable(1);
    let place = b.pointed(pointer);
    let five = b.literal(5);
    let store = b.take(place, five);
    // The wrong translation takes the address only now, when p is 5 and no pointer.
    let pointer = b.read_variable(1);
    let place = b.pointed(pointer);
    b.label = 9;
    let late = b.add(60, 0, [place, 0, 0]);
    let body = b.sequence(&[aim, store, late]);
    b.let_in(1, body);
    let (wrong, _, _) = watched(&b.table(), &inputs(&[7, 9]), 10);
    assert_eq!((wrong.number, wrong.record), (40, 9));
    assert_eq!(end(&self_pointing()), (0, 0));
}

/// let p, p = &p, *p = 5.
fn self_pointing() -> Vec<u8> {
    let mut b = Builder::source();
    let place = b.variable(1);
    let expression = b.address_of_variable(1);
    let aim = b.take(place, expression);
    let pointer = b.read_variable(1);
    let place = b.pointed(pointer);
    let five = b.literal(5);
    let store = b.take(place, five);
    let body = b.then(aim, store);
    b.let_in(1, body);
    b.table()
}

/// let p, q in (p = new 1; q = p; free p; p = new 1; assert predicate), and the assertion.
fn freed_and_made_again(predicate: fn(&mut Builder) -> u16) -> (Vec<u8>, u32) {
    let mut b = Builder::source();
    let first = b.new_in(1, 1);
    let place = b.variable(2);
    let old = b.read_variable(1);
    let keep = b.take(place, old);
    let free = b.free_variable(1);
    let second = b.new_in(1, 1);
    let predicate = predicate(&mut b);
    let assertion = b.assert(predicate);
    let body = b.sequence(&[first, keep, free, second, assertion]);
    let inner = b.let_in(2, body);
    b.let_in(1, inner);
    (b.table(), u32::from(assertion))
}

#[test]
fn a_dead_name_is_not_used_again() {
    // Same first cell, other name: the kept pointer stays dead, and no comparison takes it.
    let (table, _) = freed_and_made_again(|b| {
        let old = b.variable_term(2);
        let valid = b.valid(old);
        b.not(valid)
    });
    assert_eq!(end(&table), (0, 0));
    let (table, assertion) = freed_and_made_again(|b| {
        let new = b.variable_term(1);
        let old = b.variable_term(2);
        b.compare(7, new, old)
    });
    assert_eq!(end(&table), (47, assertion));
}

#[test]
fn valid_is_not_initialised() {
    let program = |kind: u8| {
        let mut b = Builder::source();
        let new = b.new_in(1, 1);
        let term = b.variable_term(1);
        let predicate = b.add(kind, 0, [term, 0, 0]);
        let assertion = b.assert(predicate);
        let body = b.then(new, assertion);
        b.let_in(1, body);
        (b.table(), u32::from(assertion))
    };
    assert_eq!(end(&program(30).0), (0, 0));
    let (table, assertion) = program(31);
    assert_eq!(end(&table), (33, assertion));
}

#[test]
fn a_stop_within_the_evaluation_is_41_and_not_33() {
    let mut b = Builder::source();
    let left = b.variable_term(1);
    let right = b.literal_term(1);
    let predicate = b.compare(7, left, right);
    let falsehood = b.compare_literals(7, 0, 1);
    let both = b.and(predicate, falsehood);
    let assertion = b.assert(both);
    b.let_in(1, assertion);
    assert_eq!(end(&b.table()), (41, u32::from(assertion)));
}
