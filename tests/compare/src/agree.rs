//! One call of the library and of the second implementation on the same case: the answers and
//! every byte of every lent buffer are equal. Each function returns the answer's number.

use crate::lent::Lent;
use crate::{host, library};
use reference::generator::Case;
use reference::{checker, plain, translator, watched, Answer};
use std::fmt::Arguments;

type Check = fn(&[u8]) -> Answer;

fn check(compiled: Check, second: Check, table: &[u8], margin: usize, what: Arguments) -> u32 {
    let lent = Lent::new(table, margin);
    let answer = compiled(lent.bytes());
    assert_eq!(answer, second(table), "{what}, table {table:?}");
    lent.assert_is(table, "table", what);
    answer.number
}

pub fn check_source(table: &[u8], margin: usize, what: Arguments) -> u32 {
    check(
        library::check_source,
        checker::check_source,
        table,
        margin,
        what,
    )
}

pub fn check_target(table: &[u8], margin: usize, what: Arguments) -> u32 {
    check(
        library::check_target,
        checker::check_target,
        table,
        margin,
        what,
    )
}

/// With these bytes in the output before the call.
pub fn translate(table: &[u8], output: &[u8], margin: usize, what: Arguments) -> u32 {
    let lent_table = Lent::new(table, margin);
    let mut lent_output = Lent::new(output, margin);
    let mut expected = output.to_vec();
    let answer = library::translate(lent_table.bytes(), lent_output.bytes_mut());
    assert_eq!(
        answer,
        translator::translate(table, &mut expected),
        "{what}, output {}",
        output.len()
    );
    lent_table.assert_is(table, "table", what);
    lent_output.assert_is(&expected, "output", what);
    answer.number
}

/// What a run answered and left, alike in the library and in the second implementation.
pub struct Left {
    pub number: u32,
    pub memory: Vec<u8>,
    pub observation: Vec<u8>,
}

pub fn run_plain(case: &Case, margin: usize, what: Arguments) -> u32 {
    plain_left(case, margin, what).number
}

/// What the plain run leaves of a case; the observation is not lent.
pub fn plain_left(case: &Case, margin: usize, what: Arguments) -> Left {
    let table = Lent::new(&case.table, margin);
    let inputs = Lent::new(&case.inputs, margin);
    let mut memory = Lent::new(&case.memory, margin);
    let mut expected = case.memory.clone();
    let answer = library::run_plain(table.bytes(), inputs.bytes(), case.fuel, memory.bytes_mut());
    let second = plain::run_plain(&case.table, &case.inputs, case.fuel, &mut expected);
    assert_eq!(answer, second, "{what}");
    table.assert_is(&case.table, "table", what);
    inputs.assert_is(&case.inputs, "inputs", what);
    memory.assert_is(&expected, "memory", what);
    Left {
        number: answer.number,
        memory: expected,
        observation: Vec::new(),
    }
}

/// The pointer with which the plain run of an unrefused case ended 42 or 50, worked out again by the C host; none at
/// every other ending.
pub fn used_pointer(case: &Case, margin: usize, what: Arguments) -> u32 {
    let table = Lent::new(&case.table, margin);
    let mut memory = Lent::new(&case.memory, margin);
    let answer = library::run_plain(table.bytes(), &case.inputs, case.fuel, memory.bytes_mut());
    let worked_out = host::used_pointer(table.bytes(), answer, memory.bytes());
    let remembered = plain::used_pointer(&case.table, &case.inputs, case.fuel);
    assert_eq!(worked_out, remembered, "{what}: {answer:?}");
    assert_eq!(remembered.is_some(), answer.led_nowhere(), "{what}");
    answer.number
}

pub fn run_watched(case: &Case, margin: usize, what: Arguments) -> u32 {
    watched_left(case, margin, what).number
}

/// What the watched run leaves of a case.
pub fn watched_left(case: &Case, margin: usize, what: Arguments) -> Left {
    let Case {
        table,
        inputs,
        fuel,
        memory,
        observation,
    } = case;
    let lent_table = Lent::new(table, margin);
    let lent_inputs = Lent::new(inputs, margin);
    let mut lent_memory = Lent::new(memory, margin);
    let mut lent_observation = Lent::new(observation, margin);
    let answer = library::run_watched(
        lent_table.bytes(),
        lent_inputs.bytes(),
        *fuel,
        lent_memory.bytes_mut(),
        lent_observation.bytes_mut(),
    );
    let (mut executed, mut observed) = (memory.clone(), observation.clone());
    let second = watched::run_watched(table, inputs, *fuel, &mut executed, &mut observed);
    assert_eq!(answer, second, "{what}");
    lent_table.assert_is(table, "table", what);
    lent_inputs.assert_is(inputs, "inputs", what);
    lent_memory.assert_is(&executed, "memory", what);
    lent_observation.assert_is(&observed, "observation memory", what);
    Left {
        number: answer.number,
        memory: executed,
        observation: observed,
    }
}
