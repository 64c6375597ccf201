//! What no proof sees: the stack that the deepest tables take.

use compare::library;
use reference::builder::Builder;
use reference::host::inputs;
use reference::limits::{
    EXECUTION_BYTES, OBSERVATION_BYTES, RECORD_BYTES, SOURCE_RECORDS, TARGET_RECORDS,
};
use reference::{checker, plain, translator, watched, Answer};
use std::thread;

const KIB: usize = 1024;

/// As the header has it: for a checker or the translator, for the plain run and for the watched run.
const CHECK_STACK: usize = 128 * KIB;
const PLAIN_STACK: usize = 384 * KIB;
const WATCHED_STACK: usize = 2048 * KIB;

/// Does the work in a thread with this much stack.
fn in_stack_of<T: Send + 'static>(bytes: usize, work: impl FnOnce() -> T + Send + 'static) -> T {
    let thread = thread::Builder::new().stack_size(bytes).spawn(work);
    thread.expect("a thread").join().expect("no overflow")
}

/// The compiled functions in small stacks answer a source table as the second implementation does.
fn source_in_small_stacks(table: Vec<u8>, fuel: u32) {
    assert_eq!(checker::check_source(&table), Answer::ACCEPTED);
    let mut output = vec![0; SOURCE_RECORDS * 14 * RECORD_BYTES];
    let translated = translator::translate(&table, &mut output);
    let mut memory = vec![0; EXECUTION_BYTES];
    let ended = plain::run_plain(&table, &inputs(&[7, 9]), fuel, &mut memory);

    let (checking, running) = (table.clone(), table);
    let answers = in_stack_of(CHECK_STACK, move || {
        let checked = library::check_source(&checking);
        (checked, library::translate(&checking, &mut output))
    });
    assert_eq!(answers, (Answer::ACCEPTED, translated));
    assert_eq!(plain_in_small_stack(running, fuel), ended);
}

fn plain_in_small_stack(table: Vec<u8>, fuel: u32) -> Answer {
    let given = inputs(&[7, 9]);
    let mut memory = vec![0; EXECUTION_BYTES];
    in_stack_of(PLAIN_STACK, move || {
        library::run_plain(&table, &given, fuel, &mut memory)
    })
}

#[test]
fn deepest_expression() {
    let mut b = Builder::source();
    let mut expression = b.read_variable(0);
    while b.len() + 4 <= SOURCE_RECORDS {
        let place = b.pointed(expression);
        expression = b.read(place);
    }
    let place = b.variable(0);
    b.take(place, expression);
    source_in_small_stacks(b.table(), 0);
}

#[test]
fn deepest_whiles() {
    let mut b = Builder::source();
    let mut statement = b.skip();
    while b.len() + 2 <= SOURCE_RECORDS {
        let one = b.literal(1);
        statement = b.while_do(one, statement);
    }
    source_in_small_stacks(b.table(), 1000);
}

#[test]
fn deepest_lets() {
    let mut b = Builder::source();
    let mut statement = b.skip();
    for variable in 1..64 {
        statement = b.let_in(variable, statement);
    }
    while b.len() + 3 <= SOURCE_RECORDS {
        let one = b.literal(1);
        let skip = b.skip();
        statement = b.if_else(one, statement, skip);
    }
    source_in_small_stacks(b.table(), 0);
}

/// The deepest term under lets and whiles, which took the most stack of all that were measured.
#[test]
fn deepest_mixture() {
    let mut b = Builder::source();
    let mut term = b.variable_term(0);
    for _ in 0..61 {
        term = b.base(term);
    }
    let predicate = b.valid(term);
    let mut statement = b.assert(predicate);
    for variable in 1..64 {
        statement = b.let_in(variable, statement);
    }
    while b.len() + 2 <= SOURCE_RECORDS {
        let one = b.literal(1);
        statement = b.while_do(one, statement);
    }
    source_in_small_stacks(b.table(), 1000);
}

fn watched_in_small_stack(table: Vec<u8>, fuel: u32) -> Answer {
    let given = inputs(&[7, 9]);
    let mut memory = vec![0; EXECUTION_BYTES];
    let mut observation = vec![0; OBSERVATION_BYTES];
    in_stack_of(WATCHED_STACK, move || {
        library::run_watched(&table, &given, fuel, &mut memory, &mut observation)
    })
}

/// The compiled functions in small stacks answer a target table as the second implementation does.
fn target_in_small_stacks(table: Vec<u8>, fuel: u32) {
    assert_eq!(checker::check_target(&table), Answer::ACCEPTED);
    let mut memory = vec![0; EXECUTION_BYTES];
    let mut observation = vec![0; OBSERVATION_BYTES];
    let ended = watched::run_watched(
        &table,
        &inputs(&[7, 9]),
        fuel,
        &mut memory,
        &mut observation,
    );

    let (checking, running) = (table.clone(), table);
    let checked = in_stack_of(CHECK_STACK, move || library::check_target(&checking));
    assert_eq!(checked, Answer::ACCEPTED);
    assert_eq!(watched_in_small_stack(running, fuel), ended);
}

/// 4,095 records below the last, each the child of the next.
#[test]
fn deepest_target_expression() {
    let mut b = Builder::target(1);
    let mut place = b.variable(0);
    while b.len() + 2 < TARGET_RECORDS {
        let address = b.address(place);
        place = b.pointed(address);
    }
    b.add(60, 0, [place, 0, 0]);
    assert_eq!(b.len(), TARGET_RECORDS);
    target_in_small_stacks(b.table(), 0);
}

/// Reads through pointers, each of which asks the memory.
#[test]
fn deepest_target_reads() {
    let mut b = Builder::target(1);
    let mut expression = b.read_variable(0);
    while b.len() + 3 <= TARGET_RECORDS {
        let place = b.pointed(expression);
        expression = b.read(place);
    }
    b.add(61, 0, [expression, 0, 0]);
    target_in_small_stacks(b.table(), 0);
}

#[test]
fn deepest_target_statement() {
    let mut b = Builder::target(1);
    let mut statement = b.skip();
    while b.len() + 2 <= TARGET_RECORDS {
        let skip = b.skip();
        statement = b.then(skip, statement);
    }
    target_in_small_stacks(b.table(), 0);
}

#[test]
fn deepest_target_whiles() {
    let mut b = Builder::target(1);
    let mut statement = b.skip();
    while b.len() + 2 <= TARGET_RECORDS {
        let one = b.literal(1);
        statement = b.while_do(one, statement);
    }
    target_in_small_stacks(b.table(), 3000);
}

/// Lets, and branches on a temporary, down to the last record.
#[test]
fn deepest_target_branches() {
    let mut b = Builder::target(1);
    let mut statement = b.skip();
    for variable in 1..64 {
        statement = b.let_in(variable, statement);
    }
    while b.len() + 5 <= TARGET_RECORDS {
        let skip = b.skip();
        statement = b.add(66, 0, [0, statement, skip]);
    }
    let one = b.literal(1);
    let first = b.add(61, 0, [one, 0, 0]);
    b.then(first, statement);
    target_in_small_stacks(b.table(), 0);
}

/// The turns of a while take no stack: 10^8 of them.
fn loop_for_ever(mut b: Builder) -> (Vec<u8>, u32) {
    let one = b.literal(1);
    let skip = b.skip();
    let statement = b.while_do(one, skip);
    (b.table(), u32::from(statement))
}

#[test]
fn many_turns() {
    let (table, statement) = loop_for_ever(Builder::source());
    let ending = Answer::ending(32, statement, 0, 1021);
    assert_eq!(plain_in_small_stack(table, 100_000_000), ending);
}

#[test]
fn many_watched_turns() {
    let (table, statement) = loop_for_ever(Builder::target(3));
    let ending = Answer::ending(32, statement, 0, 1021);
    assert_eq!(watched_in_small_stack(table, 100_000_000), ending);
}
