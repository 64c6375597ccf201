//! The cases worked on paper, P1 to P10, and R1.

use reference::builder::{asserted_calculation, calculation, Builder};
use reference::host::{self, block, cell, inputs};
use reference::listing::listing;
use reference::numbers::operate;
use reference::Answer;

/// Both runs of a source on inputs 7, 9 and fuel 10.
fn both(source: &[u8]) -> (Answer, Vec<u8>) {
    host::both(source, &inputs(&[7, 9]), 10)
}

fn number(source: &[u8]) -> u32 {
    both(source).0.number
}

/// P2 as 02 §1 has it: left, right and their quotient by operator 5.
const P2: [(i64, i64, i64); 5] = [(7, 2, 4), (-7, 2, -4), (5, 2, 2), (-5, 2, -2), (1, 3, 0)];

/// What variable 0 holds, an integer, after a run that finished.
fn result(operator: u8, left: i64, right: i64) -> i64 {
    let (answer, memory) = both(&calculation(operator, left, right));
    assert_eq!((answer.number, answer.record), (0, 0));
    let cell = cell(&memory, 0);
    assert_eq!(cell[..8], [2, 0, 1, 0, 0, 0, 0, 0]);
    i64::from_le_bytes(cell[8..].try_into().unwrap())
}

#[test]
fn p1_the_listing_of_a_validity_assertion() {
    let mut b = Builder::source();
    let place = b.variable(0);
    let expression = b.read(place);
    let term = b.term(expression);
    let predicate = b.valid(term);
    b.assert(predicate);
    let lines = "1 10 0 0 0 0 0\n2 2 0 1 0 0 0\n3 61 1 2 0 0 5\n4 64 0 0 0 1 5\n\
                 5 44 0 3 4 0 5\n6 67 0 0 0 0 5\n7 44 0 5 6 0 5\n";
    assert_eq!(listing(&b.table()), lines);
}

#[test]
fn p2_operator_5_takes_halves_to_the_even_neighbour() {
    for (left, right, quotient) in P2 {
        assert_eq!(operate(5, left, right), Ok(quotient));
        assert_eq!(result(5, left, right), quotient);
    }
}

/// The term of kind 24, which is kind 63 in a watched run: its quotient and no number beside it.
#[test]
fn p2_as_assertions_hold_of_the_quotient_alone() {
    for (left, right, quotient) in P2 {
        let asserted = |result| number(&asserted_calculation(5, left, right, result));
        assert_eq!(asserted(quotient), 0, "{left} by {right}");
        assert_eq!(asserted(quotient - 1), 33, "{left} by {right}");
        assert_eq!(asserted(quotient + 1), 33, "{left} by {right}");
    }
}

#[test]
fn p3_operator_4_divides_toward_zero() {
    assert_eq!(operate(4, -7, 2), Ok(-3));
    assert_eq!(result(4, -7, 2), -3);
}

#[test]
fn p4_the_lowest_value_by_minus_one_overflows_and_by_zero_has_no_divisor() {
    for operator in [4, 5] {
        assert_eq!(number(&calculation(operator, i64::MIN, -1)), 43);
        assert_eq!(number(&calculation(operator, i64::MIN, 0)), 44);
    }
}

#[test]
fn p5_input_offsets_0_and_1_are_valid_and_their_neighbours_are_not() {
    for (offset, expected) in [(-1, 33), (0, 0), (1, 0), (2, 33)] {
        let mut b = Builder::source();
        let expression = b.shifted_variable(0, offset);
        let term = b.term(expression);
        let predicate = b.valid(term);
        b.assert(predicate);
        assert_eq!(number(&b.table()), expected, "offset {offset}");
    }
}

#[test]
fn p6_a_fresh_variable_is_valid_and_not_initialised() {
    let mut b = Builder::source();
    let term = b.address_term(9);
    let valid = b.valid(term);
    let term = b.address_term(9);
    let initialised = b.initialised(term);
    let not_initialised = b.not(initialised);
    let both_hold = b.and(valid, not_initialised);
    let assertion = b.assert(both_hold);
    b.let_in(9, assertion);
    assert_eq!(number(&b.table()), 0);
}

#[test]
fn p7_a_variable_that_points_to_itself_can_be_stored_through() {
    let mut b = Builder::source();
    let place = b.variable(1);
    let expression = b.address_of_variable(1);
    let aim = b.take(place, expression);
    let pointer = b.read_variable(1);
    let place = b.pointed(pointer);
    let five = b.literal(5);
    let store = b.take(place, five);
    let body = b.then(aim, store);
    b.let_in(1, body);
    assert_eq!(number(&b.table()), 0);
}

#[test]
fn p8_inside_one_let_1020_cells_fit_1021_do_not_and_0_is_no_size() {
    for (size, expected) in [
        (1020, 0),
        (1021, 30),
        (1, 0),
        (0, 45),
        (-1, 45),
        (i64::MAX, 30),
    ] {
        let mut b = Builder::source();
        let place = b.variable(1);
        let size_literal = b.literal(size);
        let new = b.take_new(place, size_literal);
        b.let_in(1, new);
        let (answer, _) = both(&b.table());
        assert_eq!(answer.number, expected, "size {size}");
        let statement = if expected == 0 { 0 } else { u32::from(new) };
        assert_eq!(answer.record, statement);
    }
}

#[test]
fn p9_a_new_block_after_a_free_has_the_same_first_cell_and_the_next_name() {
    let mut b = Builder::source();
    let first = b.new_in(0, 5);
    let free = b.free_variable(0);
    let second = b.new_in(0, 5);
    b.sequence(&[first, free, second]);
    let (answer, memory) = both(&b.table());
    assert_eq!(answer, Answer::ending(0, 0, 10, 1024 - 8));
    assert_eq!(block(&memory, 3), [3, 0, 0, 0, 0, 0, 0, 0]);
    assert_eq!(block(&memory, 4), [2, 0, 3, 0, 5, 0, 0, 0]);
    assert_eq!(cell(&memory, 0)[..6], [3, 0, 1, 0, 4, 0]);
}

#[test]
fn p10_false_and_a_read_of_an_undefined_cell_is_false() {
    let mut b = Builder::source();
    let falsehood = b.compare_literals(7, 0, 1);
    let left = b.variable_term(1);
    let right = b.literal_term(1);
    let stopping = b.compare(7, left, right);
    let both_hold = b.and(falsehood, stopping);
    let neither = b.not(both_hold);
    let assertion = b.assert(neither);
    b.let_in(1, assertion);
    assert_eq!(number(&b.table()), 0);
}

/// R1 as 02 §5 has it: names 3 to 4,095 are given one a turn.
#[test]
fn r1_lets_in_a_loop_use_the_names_up_at_the_4094th_test() {
    let mut b = Builder::source();
    let one = b.literal(1);
    let skip = b.skip();
    let body = b.let_in(1, skip);
    let turns = b.while_do(one, body);
    let source = b.table();
    let end = |fuel| host::both(&source, &inputs(&[7, 9]), fuel).0;
    let no_fuel = Answer::ending(32, u32::from(turns), 0, 1021);
    assert_eq!([0, 300, 4_093].map(end), [no_fuel; 3]);
    let no_names = |left| Answer::ending(31, u32::from(body), left, 1021);
    assert_eq!([4_094, 5_000].map(end), [0, 906].map(no_names));
}
