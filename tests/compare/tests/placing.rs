//! Compiled runs of programs that leave holes among live blocks place the next ones as the second implementation does.

use compare::lent::GUARDED;
use compare::{agree, numbers, unrefused};
use reference::generator::{Case, Generator};
use reference::host::translated;
use std::collections::BTreeSet;
use std::fmt::Arguments;

type Agree = fn(&Case, usize, Arguments) -> u32;

fn compare(
    seed: u64,
    cases: u64,
    make: fn(&mut Generator) -> Vec<u8>,
    run: Agree,
) -> BTreeSet<u32> {
    numbers(seed, cases, |generator, what| {
        let case = unrefused(make(generator), generator);
        [run(&case, GUARDED, what)]
    })
}

#[test]
fn plain_runs() {
    let found = compare(81, 200_000, Generator::placing_source, agree::run_plain);
    assert_eq!(found, BTreeSet::from([0, 30, 41, 46]));
}

#[test]
fn watched_runs_of_translations() {
    let make = |generator: &mut Generator| {
        let source = generator.placing_source();
        translated(&source).expect("accepted")
    };
    let found = compare(82, 100_000, make, agree::run_watched);
    assert_eq!(found, BTreeSet::from([0, 30, 41, 46]));
}

#[test]
fn watched_runs_of_hand_made_targets() {
    let found = compare(83, 100_000, Generator::placing_target, agree::run_watched);
    assert_eq!(found, BTreeSet::from([0, 41, 48]));
}
