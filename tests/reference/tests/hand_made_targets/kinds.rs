//! What each kind of a target table's own does, by number.

use crate::target::{number, Target};

/// Whether t5 holds the integer at the end.
fn t5_is(literal: i64, build: impl FnOnce(&mut Target)) -> bool {
    let ended = number(|t| {
        build(t);
        t.integer(6, literal).statement(63, 4, 7).here(67, 4, 0);
    });
    match ended {
        0 => true,
        33 => false,
        number => panic!("ended {number}"),
    }
}

#[test]
fn temporaries_take_what_the_kinds_say() {
    assert!(t5_is(8, |t| t.integer(5, 8).end()));
    // Block 1, variable 0's own, has one cell; what t7 points to is its pointer to the inputs.
    assert!(t5_is(1, |t| {
        let place = t.b.variable(0);
        t.parts.push(t.b.add(60, 6, [place, 0, 0]));
        t.statement(64, 5, 5);
    }));
    assert!(t5_is(2, |t| {
        let place = t.b.variable(0);
        t.parts.push(t.b.add(60, 7, [place, 0, 0]));
        let place = t.b.add(12, 7, [0; 3]);
        let read = t.b.read(place);
        t.parts.push(t.b.add(61, 6, [read, 0, 0]));
        t.statement(64, 5, 5);
    }));
    for (operator, result) in [(1, 16), (2, -2), (3, 63), (4, 0), (5, 1), (6, 1), (7, 0)] {
        assert!(t5_is(result, |t| t
            .integer(6, 7)
            .integer(7, 9)
            .statement(63, 5, operator)
            .end()));
    }
    assert!(t5_is(4, |t| {
        t.inputs(7, 1)
            .integer(8, 3)
            .statement(63, 6, 8)
            .statement(64, 5, 4);
    }));
    for (held, result) in [(0, 1), (1, 0), (-4, 0)] {
        assert!(t5_is(result, |t| t
            .integer(6, held)
            .statement(65, 5, 0)
            .end()));
    }
}

#[test]
fn queries_tell_what_their_numbers_say() {
    for (query, result) in [(1, 1), (2, 1), (4, 1), (5, 2)] {
        assert!(
            t5_is(result, |t| t.inputs(6, 1).statement(64, 5, query).end()),
            "query {query}"
        );
    }
    // Query 3 gives a pointer: its offset is 0, and its block that of the inputs, of 2 cells.
    for (query, result) in [(4, 0), (5, 2)] {
        assert!(t5_is(result, |t| t
            .inputs(7, 1)
            .statement(64, 6, 3)
            .statement(64, 5, query)
            .end()));
    }
}

#[test]
fn queries_1_and_2_give_1_or_0() {
    for query in [1, 2] {
        assert!(t5_is(1, |t| t.inputs(6, 1).statement(64, 5, query).end()));
        assert!(t5_is(0, |t| t.inputs(6, 2).statement(64, 5, query).end()));
    }
}

#[test]
fn branches_and_assertions_go_by_their_temporary() {
    for (held, result) in [(3, 1), (0, 2)] {
        assert!(t5_is(result, |t| {
            t.integer(6, held);
            let branches = [1, 2].map(|literal| {
                let expression = t.b.literal(literal);
                t.b.add(61, 5, [expression, 0, 0])
            });
            t.parts.push(t.b.add(66, 6, [0, branches[0], branches[1]]));
        }));
        let asserted = number(|t| t.integer(6, held).here(67, 6, 0).end());
        assert_eq!(asserted, if held == 0 { 33 } else { 0 });
    }
}

#[test]
fn blocks_are_stored_initialised_and_deleted() {
    let asked = |query: u16, calls: &[u8]| {
        let lasting = |literal| {
            t5_is(literal, |t| {
                t.new_block(6, 3).integer(7, 3);
                for &kind in calls {
                    t.statement(kind, 6, 0);
                }
                t.statement(64, 5, query);
            })
        };
        (0..=3).find(|&literal| lasting(literal))
    };
    assert_eq!(
        [1, 2, 5].map(|query| asked(query, &[68])),
        [Some(1), Some(0), Some(3)]
    );
    assert_eq!(
        [1, 2].map(|query| asked(query, &[68, 70])),
        [Some(1), Some(1)]
    );
    assert_eq!(
        [1, 2].map(|query| asked(query, &[68, 70, 69])),
        [Some(0), Some(0)]
    );
}
