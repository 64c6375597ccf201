//! The deepest tables, which the C interpreter has to run in 8 MiB of stack.

use crate::{run_c, run_reference};
use reference::builder::Builder;
use reference::generator::Case;
use reference::host::inputs;
use reference::limits::{EXECUTION_BYTES, OBSERVATION_BYTES, SOURCE_RECORDS, TARGET_RECORDS};
use std::thread;

const STACK: usize = 8 << 20;

fn compare_in_small_stack(what: &str, b: &Builder, watched: bool) {
    let (memory, observation) = (vec![7; EXECUTION_BYTES], vec![7; OBSERVATION_BYTES]);
    let case = Case { table: b.table(), inputs: inputs(&[7]), fuel: 5_000, memory, observation };
    let expected = run_reference(&case, watched);
    let number = expected.0.number;
    let thread = thread::Builder::new().stack_size(STACK).spawn(move || run_c(&case, watched));
    assert!(thread.expect("a thread").join().expect("no overflow") == expected, "{what}");
    println!("{what}: agrees in {} MiB of stack, number {number}", STACK >> 20);
}

/// What is pointed to by the address of what is pointed to, down to variable 0.
fn nested_places(b: &mut Builder, records: usize) -> u16 {
    let mut place = b.variable(0);
    while b.len() + 2 <= records {
        let address = b.address(place);
        place = b.pointed(address);
    }
    place
}

/// Operators nested in B.
fn nested_operators(b: &mut Builder, records: usize) -> u16 {
    let count = records / 2;
    let ones: Vec<u16> = (0..=count).map(|_| b.literal(1)).collect();
    let mut expression = ones[count];
    for &one in &ones[..count] {
        expression = b.add(4, 1, [one, expression, 0]);
    }
    expression
}

fn nested_whiles(b: &mut Builder, records: usize) {
    let mut statement = b.skip();
    while b.len() + 2 <= records {
        let one = b.literal(1);
        statement = b.while_do(one, statement);
    }
}

fn nested_thens(b: &mut Builder, records: usize) {
    let mut statement = b.skip();
    while b.len() + 2 <= records {
        let skip = b.skip();
        statement = b.then(statement, skip);
    }
}

pub fn compare() {
    for (watched, records) in [(false, SOURCE_RECORDS), (true, TARGET_RECORDS)] {
        let builder = || if watched { Builder::target(1) } else { Builder::source() };
        let run = if watched { "watched run" } else { "plain run" };
        let mut b = builder();
        let place = nested_places(&mut b, records - 2);
        let value = b.literal(6);
        b.take(place, value);
        compare_in_small_stack(&format!("places {records} records deep, {run}"), &b, watched);
        let mut b = builder();
        let expression = nested_operators(&mut b, records - 4);
        let place = b.variable(0);
        b.take(place, expression);
        compare_in_small_stack(&format!("operators {records} records deep, {run}"), &b, watched);
        let mut b = builder();
        nested_whiles(&mut b, records);
        compare_in_small_stack(&format!("whiles {records} records deep, {run}"), &b, watched);
        let mut b = builder();
        nested_thens(&mut b, records);
        compare_in_small_stack(&format!("sequences {records} records deep, {run}"), &b, watched);
    }
}
