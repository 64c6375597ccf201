//! With which pointer a run ended 42 or 50: the C host works it out again from the table, the compiled run's answer
//! and the memory it left, and the second implementation remembers it from the moment of the failure.

use compare::lent::GUARDED;
use compare::{agree, numbers, unrefused};
use reference::answer::PLAIN_ENDINGS;
use reference::generator::Generator;
use std::collections::BTreeMap;

const CASES: u64 = 100_000;

/// How often each ending came.
fn compare(make: fn(&mut Generator) -> Vec<u8>, seed: u64) -> BTreeMap<u32, u32> {
    let mut counts = BTreeMap::new();
    numbers(seed, CASES, |generator, what| {
        let case = unrefused(make(generator), generator);
        let number = agree::used_pointer(&case, GUARDED, what);
        *counts.entry(number).or_default() += 1;
        [number]
    });
    assert!(counts.keys().copied().eq(PLAIN_ENDINGS), "{counts:?}");
    counts
}

#[test]
fn on_programs_that_go_astray() {
    let counts = compare(Generator::astray_source, 61);
    let often = [42, 50].iter().all(|number| counts[number] >= 1_000);
    assert!(often, "{counts:?}");
}

#[test]
fn on_programs_of_every_ending() {
    compare(Generator::accepted_source, 62);
}
