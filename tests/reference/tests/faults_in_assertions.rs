//! How assertions end: truth, skipping, and faults within terms; plain and translated alike.

use reference::builder::Builder;
use reference::host::{both, inputs};

/// The ending of `let 1 in (1 = new 2; free 1; let 2 in (2 = new 3; assert predicate))`, where
/// variable 1 points to a dead block and variable 2 to a live undefined one of 3 cells.
fn asserting(build: impl FnOnce(&mut Builder) -> u16) -> u32 {
    let mut b = Builder::source();
    let first = b.new_in(1, 2);
    let free = b.free_variable(1);
    let second = b.new_in(2, 3);
    let predicate = build(&mut b);
    let assertion = b.assert(predicate);
    let inner = b.then(second, assertion);
    let inner = b.let_in(2, inner);
    let body = b.sequence(&[first, free, inner]);
    b.let_in(1, body);
    let (answer, _) = both(&b.table(), &inputs(&[7, 9]), 10);
    let statement = if answer.number == 0 {
        0
    } else {
        u32::from(assertion)
    };
    assert_eq!(answer.record, statement);
    answer.number
}

fn truth(b: &mut Builder) -> u16 {
    b.compare_literals(6, 1, 2)
}

fn falsehood(b: &mut Builder) -> u16 {
    b.compare_literals(6, 2, 1)
}

/// A predicate whose working out ends 44.
fn stopping(b: &mut Builder) -> u16 {
    let left = b.literal_term(1);
    let right = b.literal_term(0);
    let quotient = b.term_operator(4, left, right);
    let right = b.literal_term(1);
    b.compare(7, quotient, right)
}

type Part = fn(&mut Builder) -> u16;

#[test]
fn and_and_or_skip_b_when_a_decides() {
    let cases: [(Part, Part, u32, u32); 6] = [
        (truth, truth, 0, 0),
        (truth, falsehood, 33, 0),
        (falsehood, truth, 33, 0),
        (falsehood, stopping, 33, 44),
        (truth, stopping, 44, 0),
        (stopping, truth, 44, 44),
    ];
    for (left, right, and, or) in cases {
        for (kind, expected) in [(34, and), (35, or)] {
            let number = asserting(|b| {
                let left = left(b);
                let right = right(b);
                b.add(kind, 0, [left, right, 0])
            });
            assert_eq!(number, expected);
        }
    }
}

#[test]
fn not_turns_truth_round_and_keeps_a_stop() {
    let cases: [(Part, u32); 3] = [(truth, 33), (falsehood, 0), (stopping, 44)];
    for (part, expected) in cases {
        let number = asserting(|b| {
            let predicate = part(b);
            b.not(predicate)
        });
        assert_eq!(number, expected);
    }
}

#[test]
fn base_offset_and_length_of_a_dead_block_are_47() {
    for kind in [21, 22, 23] {
        let number = asserting(|b| {
            let term = b.variable_term(1);
            let asked = b.add(kind, 0, [term, 0, 0]);
            match kind {
                21 => b.valid(asked),
                _ => {
                    let zero = b.literal_term(0);
                    b.compare(6, zero, asked)
                }
            }
        });
        assert_eq!(number, 47, "kind {kind}");
    }
}

#[test]
fn a_dead_block_is_neither_valid_nor_initialised_and_that_is_no_stop() {
    for kind in [30, 31] {
        let number = asserting(|b| {
            let term = b.variable_term(1);
            let predicate = b.add(kind, 0, [term, 0, 0]);
            b.not(predicate)
        });
        assert_eq!(number, 0, "kind {kind}");
    }
}

#[test]
fn queries_and_predicates_take_a_pointer_before_47() {
    for kind in [21, 22, 23, 30, 31] {
        let number = asserting(|b| {
            let term = b.literal_term(2);
            let asked = b.add(kind, 0, [term, 0, 0]);
            match kind {
                21..=23 => b.valid(asked),
                _ => asked,
            }
        });
        assert_eq!(number, 40, "kind {kind}");
    }
}

#[test]
fn offset_may_lie_outside_and_base_keeps_the_name_at_offset_0() {
    let number = asserting(|b| {
        let outside = b.shifted_variable(2, -9);
        let term = b.term(outside);
        let offset = b.offset(term);
        let nine = b.literal_term(-9);
        let same_offset = b.compare(7, offset, nine);
        let outside = b.shifted_variable(2, 700);
        let term = b.term(outside);
        let base = b.base(term);
        let pointer = b.variable_term(2);
        let same_base = b.compare(7, base, pointer);
        b.and(same_offset, same_base)
    });
    assert_eq!(number, 0);
}

#[test]
fn length_counts_the_cells_of_the_block() {
    for (claimed, expected) in [(2, 33), (3, 0), (4, 33)] {
        let number = asserting(|b| {
            let inside = b.shifted_variable(2, 1);
            let term = b.term(inside);
            let length = b.length(term);
            let claimed = b.literal_term(claimed);
            b.compare(7, length, claimed)
        });
        assert_eq!(number, expected);
    }
}

#[test]
fn validity_ends_with_the_block_on_both_sides() {
    for (offset, expected) in [
        (-1, 33),
        (0, 0),
        (2, 0),
        (3, 33),
        (i64::MAX, 33),
        (i64::MIN, 33),
    ] {
        let number = asserting(|b| {
            let pointer = b.shifted_variable(2, offset);
            let term = b.term(pointer);
            b.valid(term)
        });
        assert_eq!(number, expected, "offset {offset}");
    }
}

#[test]
fn pointers_are_equal_where_both_name_and_offset_are() {
    let cases = [(2, 0, 0), (2, 1, 33), (2, -1, 33), (0, 0, 33)];
    for (variable, by, expected) in cases {
        let in_terms = asserting(|b| {
            let left = b.variable_term(2);
            let right = b.shifted_variable(variable, by);
            let right = b.term(right);
            b.compare(7, left, right)
        });
        let in_expressions = asserting(|b| {
            let left = b.read_variable(2);
            let right = b.shifted_variable(variable, by);
            let equal = b.operator(7, left, right);
            let equal = b.term(equal);
            let one = b.literal_term(1);
            b.compare(7, equal, one)
        });
        assert_eq!([in_terms, in_expressions], [expected; 2]);
    }
}

#[test]
fn a_dead_pointer_may_be_shifted_and_not_compared() {
    let shifted = |b: &mut Builder| {
        let pointer = b.variable_term(1);
        let by = b.literal_term(1);
        b.term_operator(8, pointer, by)
    };
    let asked = asserting(|b| {
        let pointer = shifted(b);
        let valid = b.valid(pointer);
        b.not(valid)
    });
    let compared = asserting(|b| {
        let (left, right) = (shifted(b), shifted(b));
        b.compare(7, left, right)
    });
    assert_eq!([asked, compared], [0, 47]);
}

#[test]
fn terms_look_at_sorts_after_both_operands() {
    let number = asserting(|b| {
        let left = b.variable_term(2);
        let undefined = b.read_pointed(2);
        let right = b.term(undefined);
        b.compare(6, left, right)
    });
    assert_eq!(number, 41);
}

#[test]
fn a_term_that_overflows_is_43_and_one_at_an_integer_shift_40() {
    let number = asserting(|b| {
        let left = b.literal_term(i64::MAX);
        let right = b.literal_term(1);
        let sum = b.term_operator(1, left, right);
        let one = b.literal_term(1);
        b.compare(6, sum, one)
    });
    assert_eq!(number, 43);
    let number = asserting(|b| {
        let left = b.literal_term(4);
        let right = b.literal_term(1);
        let shifted = b.term_operator(8, left, right);
        b.valid(shifted)
    });
    assert_eq!(number, 40);
}
