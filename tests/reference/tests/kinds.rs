//! What each kind of a source table does, by number, in the plain run and in the translation's.

use reference::builder::Builder;
use reference::host::{both, cell, inputs};
use reference::Answer;

/// The ending on inputs 7, 9 with fuel 10, and the memory's bytes.
fn after(build: impl FnOnce(&mut Builder)) -> (Answer, Vec<u8>) {
    let mut b = Builder::source();
    build(&mut b);
    both(&b.table(), &inputs(&[7, 9]), 10)
}

#[derive(Debug, PartialEq)]
enum Held {
    Integer(i64),
    Pointer(u16, i64),
}

use Held::{Integer, Pointer};

/// What variable 0 holds after a program that finishes.
fn variable_0(build: impl FnOnce(&mut Builder)) -> Held {
    let (answer, memory) = after(build);
    assert_eq!(answer.number, 0);
    let cell = cell(&memory, 0);
    let number = i64::from_le_bytes(cell[8..].try_into().unwrap());
    match cell[0] {
        2 => Integer(number),
        3 => Pointer(u16::from_le_bytes([cell[4], cell[5]]), number),
        kind => panic!("a cell of kind {kind}"),
    }
}

/// What variable 0 holds when it has taken the expression.
fn taken(build: impl FnOnce(&mut Builder) -> u16) -> Held {
    variable_0(|b| {
        let place = b.variable(0);
        let expression = build(b);
        b.take(place, expression);
    })
}

/// Whether an assertion of the predicate holds.
fn holds(build: impl FnOnce(&mut Builder) -> u16) -> bool {
    let (answer, _) = after(|b| {
        let predicate = build(b);
        b.assert(predicate);
    });
    match answer.number {
        0 => true,
        33 => false,
        number => panic!("ended {number}"),
    }
}

const ON_7_AND_9: [(u8, i64); 7] = [(1, 16), (2, -2), (3, 63), (4, 0), (5, 1), (6, 1), (7, 0)];

#[test]
fn expressions_give_what_their_kinds_say() {
    assert_eq!(taken(|b| b.literal(-5)), Integer(-5));
    assert_eq!(taken(|b| b.read_pointed(0)), Integer(7));
    let address = |b: &mut Builder| {
        let pointer = b.shifted_variable(0, 1);
        let place = b.pointed(pointer);
        b.address(place)
    };
    assert_eq!(taken(address), Pointer(2, 1));
    for (operator, result) in ON_7_AND_9 {
        let calculated = taken(|b| {
            let left = b.literal(7);
            let right = b.literal(9);
            b.operator(operator, left, right)
        });
        assert_eq!(calculated, Integer(result), "operator {operator}");
    }
    assert_eq!(taken(|b| b.shifted_variable(0, -4)), Pointer(2, -4));
}

#[test]
fn places_lead_where_their_kinds_say() {
    assert_eq!(taken(|b| b.address_of_variable(0)), Pointer(1, 0));
    let of_variable_63 = variable_0(|b| {
        let place = b.variable(0);
        let address = b.address_of_variable(63);
        let take = b.take(place, address);
        b.let_in(63, take);
    });
    assert_eq!(of_variable_63, Pointer(3, 0));
    let pointed = taken(|b| {
        let pointer = b.shifted_variable(0, 1);
        let place = b.pointed(pointer);
        b.address(place)
    });
    assert_eq!(pointed, Pointer(2, 1));
}

#[test]
fn places_evaluate_expressions_and_expressions_read_places() {
    let twice_pointed = taken(|b| {
        let address = b.address_of_variable(0);
        let variable_0 = b.pointed(address);
        let pointer = b.read(variable_0);
        let first_input = b.pointed(pointer);
        b.read(first_input)
    });
    assert_eq!(twice_pointed, Integer(7));
}

/// Whether the term equals the literal, and no other.
fn gives(literal: i64, term: impl Fn(&mut Builder) -> u16) -> bool {
    let equals = |literal| {
        holds(|b| {
            let left = term(b);
            let right = b.literal_term(literal);
            b.compare(7, left, right)
        })
    };
    equals(literal) && !equals(literal + 1)
}

#[test]
fn terms_give_what_their_kinds_say() {
    let second_input = |b: &mut Builder| {
        let pointer = b.shifted_variable(0, 1);
        b.term(pointer)
    };
    assert!(gives(4, |b| b.literal_term(4)));
    assert!(holds(|b| {
        let term = second_input(b);
        let base = b.base(term);
        let inputs = b.variable_term(0);
        b.compare(7, base, inputs)
    }));
    for (kind, figure) in [(22, 1), (23, 2)] {
        assert!(gives(figure, |b| {
            let term = second_input(b);
            b.add(kind, 0, [term, 0, 0])
        }));
    }
    for &(operator, result) in &ON_7_AND_9[..5] {
        assert!(gives(result, |b| {
            let left = b.literal_term(7);
            let right = b.literal_term(9);
            b.term_operator(operator, left, right)
        }));
    }
    assert!(gives(3, |b| {
        let pointer = b.variable_term(0);
        let by = b.literal_term(3);
        let shifted = b.term_operator(8, pointer, by);
        b.offset(shifted)
    }));
}

#[test]
fn predicates_hold_as_their_kinds_say() {
    let of_pointer = |kind: u8, by: i64| {
        holds(|b| {
            let pointer = b.shifted_variable(0, by);
            let term = b.term(pointer);
            b.add(kind, 0, [term, 0, 0])
        })
    };
    assert_eq!([30, 31].map(|kind| of_pointer(kind, 1)), [true; 2]);
    assert_eq!([30, 31].map(|kind| of_pointer(kind, 2)), [false; 2]);
    let of_undefined = |kind: u8| {
        let (answer, _) = after(|b| {
            let term = b.address_term(1);
            let predicate = b.add(kind, 0, [term, 0, 0]);
            let assertion = b.assert(predicate);
            b.let_in(1, assertion);
        });
        answer.number
    };
    assert_eq!([30, 31].map(of_undefined), [0, 33]);
    let compared = |operator, left, right| holds(|b| b.compare_literals(operator, left, right));
    assert_eq!(
        [compared(6, 1, 2), compared(6, 2, 2), compared(6, 2, 1)],
        [true, true, false]
    );
    assert_eq!(
        [compared(7, 1, 2), compared(7, 2, 2), compared(7, 2, 1)],
        [false, true, false]
    );
    for (left, right) in [(false, false), (false, true), (true, false), (true, true)] {
        let joined = |kind: u8| {
            holds(|b| {
                let left = b.compare_literals(7, i64::from(left), 1);
                let right = b.compare_literals(7, i64::from(right), 1);
                b.add(kind, 0, [left, right, 0])
            })
        };
        assert_eq!([joined(34), joined(35)], [left && right, left || right]);
        let turned = holds(|b| {
            let predicate = b.compare_literals(7, i64::from(left), 1);
            b.not(predicate)
        });
        assert_eq!(turned, !left);
    }
}

#[test]
fn changes_do_what_their_kinds_say() {
    assert_eq!(
        variable_0(|b| {
            b.skip();
        }),
        Pointer(2, 0)
    );
    assert_eq!(
        variable_0(|b| {
            b.take_literal(0, 5);
        }),
        Integer(5)
    );
    assert_eq!(
        variable_0(|b| {
            b.new_in(0, 4);
        }),
        Pointer(3, 0)
    );
    let (_, memory) = after(|b| {
        b.new_in(0, 4);
    });
    assert_eq!(memory[16..24], [2, 0, 3, 0, 4, 0, 0, 0]);
    let (_, memory) = after(|b| {
        let new = b.new_in(0, 4);
        let free = b.free_variable(0);
        b.then(new, free);
    });
    assert_eq!(memory[16..24], [3, 0, 0, 0, 0, 0, 0, 0]);
    let (_, memory) = after(|b| {
        let skip = b.skip();
        b.let_in(1, skip);
    });
    assert_eq!(memory[16..24], [3, 0, 0, 0, 0, 0, 0, 0]);
}

#[test]
fn joined_statements_do_what_their_kinds_say() {
    let in_order = variable_0(|b| {
        let first = b.take_literal(0, 5);
        let second = b.take_literal(0, 6);
        b.then(first, second);
    });
    assert_eq!(in_order, Integer(6));
    for (condition, expected) in [(1, 5), (0, 6)] {
        let chosen = variable_0(|b| {
            let condition = b.literal(condition);
            let then = b.take_literal(0, 5);
            let otherwise = b.take_literal(0, 6);
            b.if_else(condition, then, otherwise);
        });
        assert_eq!(chosen, Integer(expected));
    }
    let counting = |b: &mut Builder| {
        let start = b.take_literal(0, 3);
        let condition = b.read_variable(0);
        let body = b.decrease(0);
        let turns = b.while_do(condition, body);
        b.then(start, turns);
    };
    assert_eq!(variable_0(counting), Integer(0));
    // The tests of 3, 2, 1 and 0.
    assert_eq!(after(counting).0.fuel, 10 - 4);
    for (literal, expected) in [(1, 0), (0, 33)] {
        let (answer, _) = after(|b| {
            let predicate = b.compare_literals(7, literal, 1);
            b.assert(predicate);
        });
        assert_eq!(answer.number, expected);
    }
}
