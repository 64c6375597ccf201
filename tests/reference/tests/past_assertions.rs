//! The run that goes on past false assertions, on a program whose assertions are known.

use reference::builder::Builder;
use reference::host::{inputs, plain};
use reference::past::{past, Reached, Truth};
use reference::Answer;

/// let 1 in (1 = 3; while 2 at most 1 do (assert 3 at most 1; 1 = 1 - 1); assert *1 = 0).
fn program() -> (Vec<u8>, [u32; 2]) {
    let mut b = Builder::source();
    let start = b.take_literal(1, 3);
    let two = b.literal(2);
    let value = b.read_variable(1);
    let condition = b.operator(6, two, value);
    let left = b.literal_term(3);
    let right = b.variable_term(1);
    let predicate = b.compare(6, left, right);
    let inside = b.assert(predicate);
    let step = b.decrease(1);
    let body = b.then(inside, step);
    let turns = b.while_do(condition, body);
    let no_pointer = b.read_pointed(1);
    let left = b.term(no_pointer);
    let right = b.literal_term(0);
    let predicate = b.compare(7, left, right);
    let after = b.assert(predicate);
    let whole = b.sequence(&[start, turns, after]);
    b.let_in(1, whole);
    (b.table(), [u32::from(inside), u32::from(after)])
}

#[test]
fn lists_every_assertion_reached_with_its_truth() {
    let (source, [inside, after]) = program();
    let past = past(&source, &inputs(&[7, 9]), 10).expect("accepted");
    let reached = |statement, truth, fuel| Reached {
        statement,
        truth,
        fuel,
    };
    let expected = [
        reached(inside, Truth::True, 9),
        reached(inside, Truth::False, 8),
        reached(after, Truth::Ended, 7),
    ];
    assert_eq!(past.reached, expected);
    let ending = Answer::ending(40, after, 7, 1020);
    assert_eq!(past.ending, ending);
}

#[test]
fn predicts_33_at_the_first_false_one_with_fuel_and_memory_as_then() {
    let (source, [inside, _]) = program();
    let past = past(&source, &inputs(&[7, 9]), 10).expect("accepted");
    let (predicted, memory) = past.predicted();
    assert_eq!(predicted, Answer::ending(33, inside, 8, 1020));
    let (answer, image) = plain(&source, &inputs(&[7, 9]), 10);
    assert_eq!((answer, image), (predicted, memory.image()));
}

#[test]
fn of_two_false_assertions_the_first_is_named() {
    let mut b = Builder::source();
    let [first, second] = [0; 2].map(|_| {
        let falsehood = b.compare_literals(7, 0, 1);
        b.assert(falsehood)
    });
    b.then(first, second);
    let past = past(&b.table(), &inputs(&[7, 9]), 4).expect("accepted");
    let reached = past
        .reached
        .iter()
        .map(|reached| (reached.statement, reached.truth));
    let expected = [first, second].map(|statement| (u32::from(statement), Truth::False));
    assert!(reached.eq(expected));
    let ending = Answer::ending(33, u32::from(first), 4, 1021);
    assert_eq!(past.predicted().0, ending);
    assert_eq!(plain(&b.table(), &inputs(&[7, 9]), 4).0, ending);
}

#[test]
fn a_loop_cut_short_by_fuel_predicts_32() {
    let (source, [inside, _]) = program();
    let past = past(&source, &inputs(&[7, 9]), 1).expect("accepted");
    assert_eq!(
        past.reached,
        [Reached {
            statement: inside,
            truth: Truth::True,
            fuel: 0
        }]
    );
    assert_eq!(past.predicted().0.number, 32);
}

#[test]
fn refuses_as_the_plain_run_does() {
    let (source, _) = program();
    assert_eq!(past(&source, &[], 1).unwrap_err(), Answer::of(9, 0));
    assert_eq!(past(&[0; 16], &[], 1).unwrap_err(), Answer::of(3, 1));
}
