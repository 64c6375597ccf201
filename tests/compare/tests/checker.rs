//! The compiled checker answers as the second implementation does.

use compare::lent::GUARDED;
use compare::{agree, numbers};
use std::collections::BTreeSet;

const TABLES: u64 = 50_000;

#[test]
fn accepted_sources() {
    let found = numbers(11, TABLES, |generator, what| {
        [agree::check_source(
            &generator.accepted_source(),
            GUARDED,
            what,
        )]
    });
    assert_eq!(found, BTreeSet::from([0]));
}

#[test]
fn damaged_sources() {
    let found = numbers(12, TABLES, |generator, what| {
        [agree::check_source(
            &generator.damaged_source(),
            GUARDED,
            what,
        )]
    });
    assert_eq!(found, (0..=8).collect());
}

#[test]
fn accepted_targets() {
    let found = numbers(13, TABLES, |generator, what| {
        [agree::check_target(&generator.target(), GUARDED, what)]
    });
    assert_eq!(found, BTreeSet::from([0]));
}

#[test]
fn damaged_targets() {
    let found = numbers(14, TABLES, |generator, what| {
        [agree::check_target(
            &generator.damaged_target(),
            GUARDED,
            what,
        )]
    });
    assert_eq!(found, (0..=7).collect());
}

/// Tables of the other language: no table belongs to both, as their statements' literals differ.
#[test]
fn tables_of_the_other_language() {
    let found = numbers(15, TABLES, |generator, what| {
        let source = generator.accepted_source();
        let target = generator.target();
        [
            agree::check_target(&source, GUARDED, what),
            agree::check_source(&target, GUARDED, what),
        ]
    });
    assert_eq!(found, BTreeSet::from([2, 3, 4]));
}
