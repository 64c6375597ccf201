//! Compiled runs of programs that compare pointers, into dead blocks and in targets into unrecorded ones, answer and
//! leave the memories as those of the second implementation do.

use compare::lent::GUARDED;
use compare::{agree, numbers, unrefused};
use reference::answer::{NOT_LIVE, PLAIN_ENDINGS};
use reference::generator::{Case, Generator};
use reference::host::translated;
use reference::value::Compared;
use reference::{plain, watched};
use std::collections::{BTreeMap, BTreeSet};
use std::fmt::Arguments;

/// A run of a case, compared, and the second implementation's word on the comparison that ended it.
struct Run {
    agree: fn(&Case, usize, Arguments) -> u32,
    compared: fn(&[u8], &[u8], u32) -> Option<Compared>,
}

const PLAIN: Run = Run {
    agree: agree::run_plain,
    compared: plain::compared,
};

const WATCHED: Run = Run {
    agree: agree::run_watched,
    compared: watched::compared,
};

/// The endings of accepted tables. Of both kinds comparisons ended runs often, of two blocks and of one with itself.
fn compare(
    seed: u64,
    cases: u64,
    make: fn(&mut Generator) -> Vec<u8>,
    run: Run,
    kinds: [u8; 2],
) -> BTreeSet<u32> {
    let mut counts: BTreeMap<_, u32> = BTreeMap::new();
    let found = numbers(seed, cases, |generator, what| {
        let case = unrefused(make(generator), generator);
        let number = (run.agree)(&case, GUARDED, what);
        if number == NOT_LIVE {
            let compared = (run.compared)(&case.table, &case.inputs, case.fuel);
            if let Some(Compared { kind, left, right }) = compared {
                *counts.entry((kind, left.name == right.name)).or_default() += 1;
            }
        }
        [number]
    });
    let expected = kinds.map(|kind| [(kind, false), (kind, true)]);
    assert!(counts.keys().eq(expected.as_flattened()), "{counts:?}");
    assert!(counts.values().all(|&times| times >= 1_000), "{counts:?}");
    found
}

#[test]
fn plain_runs() {
    let found = compare(71, 200_000, Generator::comparing_source, PLAIN, [4, 32]);
    assert_eq!(found, BTreeSet::from(PLAIN_ENDINGS));
}

#[test]
fn watched_runs_of_translations() {
    let make = |generator: &mut Generator| {
        let source = generator.comparing_source();
        translated(&source).expect("accepted")
    };
    let found = compare(72, 100_000, make, WATCHED, [4, 63]);
    assert_eq!(found, BTreeSet::from(PLAIN_ENDINGS));
}

#[test]
fn watched_runs_of_hand_made_targets() {
    let found = compare(73, 100_000, Generator::comparing_target, WATCHED, [4, 63]);
    let endings: BTreeSet<u32> = PLAIN_ENDINGS.into_iter().chain([48, 49]).collect();
    assert_eq!(found, endings);
}
