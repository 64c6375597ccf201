//! The compiled watched run answers and leaves both memories as the second implementation does.

use compare::lent::GUARDED;
use compare::{agree, library, numbers, unrefused};
use reference::answer::PLAIN_ENDINGS;
use reference::generator::Generator;
use reference::host::is_mirrored;
use reference::limits::{EXECUTION_BYTES, OBSERVATION_BYTES, SOURCE_RECORDS};
use std::collections::BTreeSet;

const CASES: u64 = 50_000;

type Make = fn(&mut Generator) -> Vec<u8>;

/// The endings of accepted targets.
fn compare(make: Make, seed: u64) -> BTreeSet<u32> {
    numbers(seed, CASES, |generator, what| {
        let case = unrefused(make(generator), generator);
        [agree::run_watched(&case, GUARDED, what)]
    })
}

/// 48 and 49 are a target's own.
fn target_endings() -> BTreeSet<u32> {
    PLAIN_ENDINGS.into_iter().chain([48, 49]).collect()
}

/// "From translated programs 48 and 49 never come."
#[test]
fn translations_reach_every_ending_of_a_plain_run() {
    let found = compare(|generator| generator.translated_target(), 41);
    assert_eq!(found, BTreeSet::from(PLAIN_ENDINGS));
}

#[test]
fn hand_made_targets_reach_every_ending() {
    let found = compare(|generator| generator.hand_made_target(), 42);
    assert_eq!(found, target_endings());
}

#[test]
fn targets_that_go_astray() {
    let found = compare(|generator| generator.astray_target(), 47);
    assert_eq!(found, target_endings());
}

#[test]
fn changed_translations() {
    let found = compare(|generator| generator.changed_target(), 43);
    assert!(found.is_subset(&target_endings()), "reached {found:?}");
}

/// Damaged tables, wrong inputs, and memories of wrong lengths.
#[test]
fn whole_cases_reach_every_refusal() {
    let found = numbers(44, CASES, |generator, what| {
        [agree::run_watched(&generator.target_case(), GUARDED, what)]
    });
    let refusals: BTreeSet<u32> = (1..=7).chain([9, 21, 22]).collect();
    assert!(found.is_superset(&refusals), "reached {found:?}");
}

/// More than one thing wrong at once: the first in the order 1 to 7, 9, 21, 22 is told.
#[test]
fn the_order_of_refusals() {
    let found = numbers(45, CASES, |generator, what| {
        let mut case = generator.target_case();
        if generator.random.chance(50) {
            case.table = generator.damaged_target();
            case.fuel = generator.fuel_for(&case.table);
        }
        if generator.random.chance(50) {
            case.inputs = generator.bad_inputs();
        }
        if generator.random.chance(50) {
            case.memory = generator.wrong_length(EXECUTION_BYTES);
        }
        if generator.random.chance(50) {
            case.observation = generator.wrong_length(OBSERVATION_BYTES);
        }
        [agree::run_watched(&case, GUARDED, what)]
    });
    let refusals: BTreeSet<u32> = (1..=7).chain([9, 21, 22]).collect();
    assert!(found.is_superset(&refusals), "reached {found:?}");
}

/// The library alone: the watched run of its own translation is its plain run over again, and the
/// observation memory mirrors the execution memory at every ending but 42 and 50.
#[test]
fn both_runs_of_the_library_agree() {
    let mut target = vec![0; SOURCE_RECORDS * 14 * 16];
    numbers(46, CASES, |generator, what| {
        let source = generator.accepted_source();
        let fuel = generator.fuel_for(&source);
        let inputs = generator.inputs();
        let (mut plain, mut watched) = (vec![0; EXECUTION_BYTES], vec![1; EXECUTION_BYTES]);
        let mut observation = vec![1; OBSERVATION_BYTES];

        let translated = library::translate(&source, &mut target);
        let target = &target[..translated.record as usize * 16];
        let answer = library::run_plain(&source, &inputs, fuel, &mut plain);
        let other = library::run_watched(target, &inputs, fuel, &mut watched, &mut observation);
        assert_eq!(other, answer, "{what}");
        assert!(watched == plain, "{what}: the memories part");
        assert!(
            is_mirrored(answer, &plain, &observation),
            "{what}: no mirror"
        );
        [answer.number]
    });
}
