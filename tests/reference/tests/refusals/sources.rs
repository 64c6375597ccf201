//! Refusals 1 to 8 of a source table, each at its boundary.

use crate::forms::{source_forms, Around, Rules};
use reference::builder::Builder;
use reference::checker::check_source;
use reference::record::{table, Record};
use reference::Answer;

fn rules() -> Rules {
    Rules {
        forms: source_forms(),
        label: 0,
        check: check_source,
    }
}

fn end(bytes: &[u8]) -> (u32, u32) {
    let answer = check_source(bytes);
    assert_eq!((answer.fuel, answer.free_cells), (0, 0));
    (answer.number, answer.record)
}

fn record(kind: u8, mark: u8, [a, b, c]: [u16; 3], literal: i64) -> Record {
    Record {
        kind,
        mark,
        a,
        b,
        c,
        literal,
    }
}

/// A program of `count` skips and their 44s, inside a let where the count is even.
fn of_length(count: usize) -> Vec<u8> {
    let mut b = Builder::source();
    let mut program = b.skip();
    while b.len() + 2 <= count {
        let skip = b.skip();
        program = b.then(program, skip);
    }
    if b.len() < count {
        b.let_in(1, program);
    }
    b.table()
}

#[test]
fn no_byte_and_no_multiple_of_16_are_1() {
    for length in [0, 1, 15, 17, 4095, 4097, 4113] {
        assert_eq!(end(&vec![40; length]), (1, 0), "{length} bytes");
    }
}

#[test]
fn records_up_to_256_are_accepted_and_257_are_2() {
    for count in [1, 2, 3, 255, 256] {
        let bytes = of_length(count);
        assert_eq!(bytes.len(), count * 16);
        assert_eq!(check_source(&bytes), Answer::ACCEPTED);
    }
    assert_eq!(end(&of_length(257)), (2, 0));
    assert_eq!(end(&[0; 257 * 16]), (2, 0));
}

#[test]
fn every_form_of_the_language_is_accepted() {
    rules().every_form_is_accepted_as_it_stands();
}

#[test]
fn every_other_kind_is_3() {
    rules().every_other_kind_is_3();
}

#[test]
fn every_mark_outside_its_range_is_4() {
    rules().every_mark_outside_its_range_is_4();
}

#[test]
fn a_missing_child_and_a_child_too_many_are_4() {
    rules().a_missing_child_and_a_child_too_many_are_4();
}

#[test]
fn a_literal_belongs_to_kind_1_alone() {
    for form in source_forms() {
        for literal in [1, -1, 256, 1 << 32, i64::MIN] {
            let mut around = Around::new(form, 0);
            around.record().literal = literal;
            let expected = if form.kind == 1 {
                (0, 0)
            } else {
                (4, around.number as u32)
            };
            assert_eq!(end(&around.table()), expected, "kind {}", form.kind);
        }
    }
}

#[test]
fn a_child_of_another_sort_is_5() {
    rules().a_child_of_another_sort_is_5("eptqs");
}

#[test]
fn a_child_at_or_above_its_own_number_is_5() {
    rules().a_child_at_or_above_its_own_number_is_5();
}

#[test]
fn refusals_3_to_5_go_record_by_record() {
    let own_child = record(2, 0, [1, 0, 0], 0);
    let no_kind = record(99, 7, [1, 1, 1], 1);
    let no_mark = record(4, 0, [9, 9, 0], 0);
    let skip = record(40, 0, [0; 3], 0);
    assert_eq!(end(&table(&[own_child, no_kind])), (5, 1));
    assert_eq!(end(&table(&[no_kind, own_child])), (3, 1));
    assert_eq!(end(&table(&[no_mark, no_kind])), (4, 1));
    assert_eq!(end(&table(&[skip, no_kind, own_child])), (3, 2));
    assert_eq!(end(&table(&[skip, skip, no_kind])), (3, 3));
}

#[test]
fn the_shape_names_the_lowest_record_that_is_not_a_child_exactly_once() {
    let skip = record(40, 0, [0; 3], 0);
    let literal = record(1, 0, [0; 3], 3);
    let variable = record(10, 0, [0; 3], 0);
    assert_eq!(end(&table(&[literal])), (6, 1));
    assert_eq!(end(&table(&[skip, skip])), (6, 1));
    assert_eq!(end(&table(&[skip, record(44, 0, [1, 1, 0], 0)])), (6, 1));
    assert_eq!(end(&table(&[variable, record(2, 0, [1, 0, 0], 0)])), (6, 2));
    assert_eq!(end(&table(&[variable])), (6, 1));
    let term = record(20, 0, [1, 0, 0], 0);
    assert_eq!(end(&table(&[literal, term])), (6, 2));
    let predicate = record(30, 0, [2, 0, 0], 0);
    assert_eq!(end(&table(&[literal, term, predicate])), (6, 3));
    assert_eq!(end(&table(&[skip, literal])), (6, 1));
    let twice = [
        skip,
        skip,
        skip,
        record(44, 0, [1, 3, 0], 0),
        record(44, 0, [4, 3, 0], 0),
    ];
    assert_eq!(end(&table(&twice)), (6, 2));
}

#[test]
fn shape_comes_before_scope() {
    let outside = record(10, 5, [0; 3], 0);
    let literal = record(1, 0, [0; 3], 0);
    let take = record(41, 0, [1, 2, 0], 0);
    assert_eq!(end(&table(&[outside, literal, take])), (7, 1));
    assert_eq!(end(&table(&[outside, literal, take, literal])), (6, 3));
}

#[test]
fn a_variable_is_in_scope_inside_its_let_only() {
    let mut b = Builder::source();
    let inside = b.read_variable(3);
    let free_inside = b.free(inside);
    let block = b.let_in(3, free_inside);
    let accepted = b.clone();
    assert_eq!(end(&accepted.table()), (0, 0));
    let place = b.variable(3);
    let outside = b.read(place);
    let free_outside = b.free(outside);
    b.then(block, free_outside);
    assert_eq!(end(&b.table()), (7, u32::from(place)));
}

#[test]
fn a_let_of_a_variable_in_scope_is_7_and_a_second_let_after_the_first_is_not() {
    let mut b = Builder::source();
    let skip = b.skip();
    let inner = b.let_in(3, skip);
    b.let_in(3, inner);
    assert_eq!(end(&b.table()), (7, u32::from(inner)));

    let mut b = Builder::source();
    let skip = b.skip();
    let first = b.let_in(3, skip);
    let skip = b.skip();
    let second = b.let_in(3, skip);
    b.then(first, second);
    assert_eq!(end(&b.table()), (0, 0));

    let mut b = Builder::source();
    let skip = b.skip();
    let zero = b.let_in(0, skip);
    assert_eq!(end(&b.table()), (7, u32::from(zero)));
}

#[test]
fn scope_names_the_lowest_offender_in_the_table() {
    let mut b = Builder::source();
    let skip = b.skip();
    let inner = b.let_in(3, skip);
    let outer = b.let_in(3, inner);
    let outside = b.read_variable(9);
    let free = b.free(outside);
    b.then(free, outer);
    assert_eq!(end(&b.table()), (7, u32::from(inner)));
}

/// An assertion whose single 20 stands at `level`: that many nots less one around a 30.
fn with_term_at(level: usize) -> Builder {
    let mut b = Builder::source();
    let term = b.literal_term(0);
    let mut predicate = b.valid(term);
    for _ in 1..level {
        predicate = b.not(predicate);
    }
    b.assert(predicate);
    b
}

#[test]
fn a_term_at_level_63_is_accepted_and_at_64_it_is_8() {
    assert_eq!(end(&with_term_at(62).table()), (0, 0));
    assert_eq!(end(&with_term_at(63).table()), (0, 0));
    // The 30 at level 63 offends too; its child has the lower number.
    assert_eq!(end(&with_term_at(64).table()), (8, 2));
    assert_eq!(end(&with_term_at(65).table()), (8, 2));
}

#[test]
fn the_second_operand_stands_two_levels_down() {
    let with_comparison_at = |level: usize| {
        let mut b = Builder::source();
        let mut predicate = b.compare_literals(6, 0, 0);
        for _ in 0..level {
            predicate = b.not(predicate);
        }
        b.assert(predicate);
        b.table()
    };
    assert_eq!(end(&with_comparison_at(61)), (0, 0));
    // A's term at level 63 is within, B's at 64 is not.
    assert_eq!(end(&with_comparison_at(62)), (8, 4));
    assert_eq!(end(&with_comparison_at(63)), (8, 2));
}

#[test]
fn and_and_or_do_not_go_down_a_level() {
    let mut b = Builder::source();
    let left = b.compare_literals(6, 0, 0);
    let middle = b.compare_literals(6, 0, 0);
    let right = b.compare_literals(6, 0, 0);
    let or = b.or(middle, right);
    let mut predicate = b.and(left, or);
    for _ in 0..61 {
        predicate = b.not(predicate);
    }
    b.assert(predicate);
    assert_eq!(end(&b.table()), (0, 0));
}

#[test]
fn scope_comes_before_depth() {
    let mut b = with_term_at(64);
    let deep = b.len() as u16;
    let place = b.variable(9);
    let outside = b.read(place);
    let free = b.free(outside);
    b.then(deep, free);
    assert_eq!(end(&b.table()), (7, u32::from(place)));
}

#[test]
fn depth_counts_where_no_run_would_come() {
    let mut b = with_term_at(64);
    let deep = b.len() as u16;
    let never = b.literal(0);
    b.while_do(never, deep);
    // The loop's literal has a higher number than its body here, and stands before it as A.
    assert_eq!(end(&b.table()), (8, 2));
}
