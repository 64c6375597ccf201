//! Temporaries: empty, of the wrong sort, and what is worked out with them.

use crate::target::{ends, number, Target, HERE};
use reference::builder::Builder;
use reference::host::{inputs, watched};

#[test]
fn an_empty_temporary_comes_before_a_wrong_sort() {
    let sum = |t: &mut Target| {
        t.here(63, 0, 1);
    };
    ends(49, |t| sum(t));
    ends(49, |t| sum(t.inputs(1, 0)));
    ends(49, |t| sum(t.inputs(2, 0)));
    ends(40, |t| sum(t.inputs(1, 0).integer(2, 0)));
    ends(40, |t| sum(t.integer(1, 0).inputs(2, 0)));
    ends(43, |t| sum(t.integer(1, i64::MAX).integer(2, 1)));
    ends(0, |t| sum(t.integer(1, 1).integer(2, 1)));
}

#[test]
fn operators_on_temporaries_go_40_44_43() {
    let with = |operator: u16, left: i64, right: i64| {
        number(|t| {
            t.integer(1, left).integer(2, right).here(63, 0, operator);
        })
    };
    assert_eq!(with(4, i64::MIN, 0), 44);
    assert_eq!(with(4, i64::MIN, -1), 43);
    assert_eq!(with(8, 1, 1), 40);
    ends(40, |t| t.inputs(1, 0).integer(2, 0).here(63, 0, 5).end());
    ends(43, |t| {
        t.inputs(1, i64::MAX).integer(2, 1).here(63, 0, 8).end()
    });
    ends(0, |t| t.inputs(1, 0).inputs(2, 0).here(63, 0, 7).end());
    ends(40, |t| t.inputs(1, 0).inputs(2, 0).here(63, 0, 6).end());
    ends(40, |t| t.inputs(1, 0).integer(2, 0).here(63, 0, 7).end());
}

#[test]
fn not_branch_and_assert_take_integers() {
    for (kind, mark) in [(65, 0), (67, 1)] {
        ends(49, |t| t.here(kind, mark, 0).end());
        ends(40, |t| t.inputs(1, 0).here(kind, mark, 0).end());
    }
    ends(40, |t| {
        t.inputs(1, 0).b.label = HERE;
        let (then, otherwise) = (t.b.skip(), t.b.skip());
        t.parts.push(t.b.add(66, 1, [0, then, otherwise]));
        t.b.label = 1;
    });
    ends(33, |t| t.integer(1, 0).here(67, 1, 0).end());
    ends(0, |t| t.integer(1, -3).here(67, 1, 0).end());
    ends(0, |t| {
        t.integer(1, 0).statement(65, 0, 0).here(67, 0, 0).end()
    });
    ends(33, |t| {
        t.integer(1, 5).statement(65, 0, 0).here(67, 0, 0).end()
    });
}

#[test]
fn a_branch_goes_the_way_of_its_temporary() {
    let branch = |temporary: Option<i64>| {
        let mut b = Builder::target(3);
        let mut parts = Vec::new();
        if let Some(literal) = temporary {
            let expression = b.literal(literal);
            parts.push(b.add(61, 5, [expression, 0, 0]));
        }
        let then = b.skip();
        b.label = 4;
        let empty = b.add(67, 9, [0; 3]);
        b.label = 5;
        parts.push(b.add(66, 5, [0, then, empty]));
        b.sequence(&parts);
        let (answer, _, _) = watched(&b.table(), &inputs(&[7, 9]), 0);
        (answer.number, answer.record)
    };
    assert_eq!(branch(Some(2)), (0, 0));
    assert_eq!(branch(Some(0)), (49, 4));
    assert_eq!(branch(None), (49, 5));
}

#[test]
fn place_12_goes_49_40_before_any_b_and_42_or_50_at_the_store() {
    let store = |fill: fn(&mut Target) -> &mut Target, divisor: i64| {
        number(|t| {
            fill(t);
            t.b.label = HERE;
            let place = t.b.add(12, 7, [0; 3]);
            let one = t.b.literal(1);
            let divisor = t.b.literal(divisor);
            let value = t.b.operator(4, one, divisor);
            t.parts.push(t.b.take(place, value));
            t.b.label = 1;
        })
    };
    assert_eq!([store(|t| t, 0), store(|t| t, 1)], [49, 49]);
    assert_eq!(store(|t| t.integer(7, 0), 0), 40);
    assert_eq!(store(|t| t.inputs(7, 2), 0), 44);
    assert_eq!(store(|t| t.inputs(7, 2), 1), 50);
    assert_eq!(store(|t| t.dead_block(7, 2), 0), 44);
    assert_eq!(store(|t| t.dead_block(7, 2), 1), 42);
    assert_eq!(store(|t| t.inputs(7, 1), 1), 0);
}

#[test]
fn taking_an_expression_or_address_names_its_faults_in_order() {
    let take_read_of_t3 = |t: &mut Target| {
        t.b.label = HERE;
        let place = t.b.add(12, 3, [0; 3]);
        let read = t.b.read(place);
        t.parts.push(t.b.add(61, 0, [read, 0, 0]));
        t.b.label = 1;
    };
    ends(49, take_read_of_t3);
    ends(40, |t| take_read_of_t3(t.integer(3, 9)));
    ends(42, |t| take_read_of_t3(t.dead_block(3, 0)));
    ends(42, |t| take_read_of_t3(t.dead_block(3, -1)));
    ends(50, |t| take_read_of_t3(t.inputs(3, 2)));
    ends(50, |t| take_read_of_t3(t.inputs(3, -1)));
    ends(41, |t| take_read_of_t3(t.new_block(3, 1)));
    ends(0, |t| take_read_of_t3(t.inputs(3, 1)));
}

#[test]
fn the_highest_temporaries_are_there() {
    let at_the_top = |t: &mut Target| {
        t.integer(62, 4)
            .integer(63, 5)
            .statement(63, 61, 1)
            .here(67, 61, 0);
    };
    ends(0, at_the_top);
    ends(0, |t| {
        t.inputs(63, 0).statement(64, 62, 2).here(67, 62, 0).end()
    });
    ends(33, |t| {
        t.integer(63, 1).statement(65, 62, 0).here(67, 62, 0).end()
    });
}
