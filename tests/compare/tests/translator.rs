//! The compiled translator answers and writes as the second implementation does.

use compare::lent::GUARDED;
use compare::{agree, numbers};
use reference::generator::Generator;
use reference::translator::translation;
use std::collections::BTreeSet;

const TABLES: u64 = 50_000;

type Make = fn(&mut Generator) -> Vec<u8>;

/// With outputs too short by a byte, exact and longer; for a refused table of whatever length.
fn compare(make: Make, seed: u64) -> BTreeSet<u32> {
    numbers(seed, TABLES, |generator, what| {
        let table = make(generator);
        let exact = translation(&table).map_or(16, |translation| translation.records.len() * 16);
        [exact - 1, exact, exact + 40].map(|length| {
            let output = generator.random.bytes(length);
            agree::translate(&table, &output, GUARDED, what)
        })
    })
}

#[test]
fn child_first_sources() {
    let found = compare(|generator| generator.child_first_source(), 21);
    assert_eq!(found, BTreeSet::from([0, 20]));
}

#[test]
fn shuffled_sources() {
    let found = compare(|generator| generator.shuffled_source(), 22);
    assert_eq!(found, BTreeSet::from([0, 20]));
}

#[test]
fn deep_sources() {
    let found = compare(|generator| generator.deep_source(), 23);
    assert_eq!(found, BTreeSet::from([0, 8, 20]));
}

#[test]
fn damaged_sources() {
    let found = compare(|generator| generator.damaged_source(), 24);
    assert_eq!(found, (0..=8).chain([20]).collect());
}
