//! The compiled plain run answers and leaves the memory as the second implementation does.

use compare::lent::GUARDED;
use compare::{agree, numbers, unrefused};
use reference::answer::PLAIN_ENDINGS;
use reference::generator::Generator;
use std::collections::BTreeSet;

const CASES: u64 = 100_000;

/// The endings of accepted programs.
fn compare(make: fn(&mut Generator) -> Vec<u8>, seed: u64) -> BTreeSet<u32> {
    numbers(seed, CASES, |generator, what| {
        let case = unrefused(make(generator), generator);
        [agree::run_plain(&case, GUARDED, what)]
    })
}

#[test]
fn accepted_programs_reach_every_ending() {
    let found = compare(Generator::accepted_source, 31);
    assert_eq!(found, BTreeSet::from(PLAIN_ENDINGS));
}

#[test]
fn programs_that_go_astray() {
    let found = compare(Generator::astray_source, 33);
    assert_eq!(found, BTreeSet::from(PLAIN_ENDINGS));
}

#[test]
fn whole_cases_reach_every_refusal() {
    let found = numbers(32, CASES, |generator, what| {
        [agree::run_plain(&generator.source_case(), GUARDED, what)]
    });
    let refusals: BTreeSet<u32> = (1..=9).chain([21]).collect();
    assert!(found.is_superset(&refusals), "reached {found:?}");
}
