//! The C interpreter gives the answers and leaves the bytes of the second implementation, on seeded cases and on the
//! deepest tables.

mod c;
mod deep;

use reference::generator::{Case, Generator};
use reference::high_names::{self, Counts};
use reference::plain::run_plain;
use reference::translator::{translate, translation};
use reference::watched::run_watched;
use reference::{checker, Answer};
use std::collections::{BTreeMap, BTreeSet};
use std::ops::RangeInclusive;

const CASES: u32 = 20_000;

/// An answer and the buffers after it.
type Outcome = (Answer, Vec<u8>, Vec<u8>);

fn run_c(case: &Case, watched: bool) -> Outcome {
    let (mut memory, mut observation) = (case.memory.clone(), case.observation.clone());
    let answer = if watched {
        c::run_watched(&case.table, &case.inputs, case.fuel, &mut memory, &mut observation)
    } else {
        c::run_plain(&case.table, &case.inputs, case.fuel, &mut memory)
    };
    (answer, memory, observation)
}

fn run_reference(case: &Case, watched: bool) -> Outcome {
    let (mut memory, mut observation) = (case.memory.clone(), case.observation.clone());
    let answer = if watched {
        run_watched(&case.table, &case.inputs, case.fuel, &mut memory, &mut observation)
    } else {
        run_plain(&case.table, &case.inputs, case.fuel, &mut memory)
    };
    (answer, memory, observation)
}

/// The table with inputs, fuel and memories that are not refused.
fn unrefused(table: Vec<u8>, generator: &mut Generator) -> Case {
    let fuel = generator.fuel_for(&table);
    let (inputs, memory) = (generator.inputs(), generator.memory());
    Case { table, fuel, inputs, memory, observation: generator.observation() }
}

type Numbers = BTreeSet<u32>;

/// Each case gives what was expected and what came. Returns the numbers of the answers.
fn compare_all(what: &str, mut case: impl FnMut(&mut Generator) -> (Outcome, Outcome)) -> Numbers {
    let mut generator = Generator::new(5);
    let mut numbers = BTreeMap::new();
    for number in 0..CASES {
        let (expected, found) = case(&mut generator);
        assert!(found == expected, "{what}, case {number}: {:?} expected, {:?} found", expected.0, found.0);
        *numbers.entry(expected.0.number).or_insert(0) += 1;
    }
    println!("{what}: {CASES} cases agree, by their numbers: {numbers:?}");
    numbers.into_keys().collect()
}

fn compare_runs(what: &str, watched: bool, make: impl Fn(&mut Generator) -> Case) -> Numbers {
    compare_all(what, |generator| {
        let case = make(generator);
        (run_reference(&case, watched), run_c(&case, watched))
    })
}

/// Accepted tables that one of the generators makes.
fn compare_accepted(what: &str, watched: bool, make: fn(&mut Generator) -> Vec<u8>) -> Numbers {
    compare_runs(what, watched, |generator| {
        let table = make(generator);
        unrefused(table, generator)
    })
}

/// Accepted tables that give many names first; the memories have shown all that such names may do to them.
fn compare_many_names(what: &str, watched: bool, make: fn(&mut Generator) -> Vec<u8>) -> Numbers {
    let mut shown = Counts::new();
    let numbers = compare_all(what, |generator| {
        let table = make(generator);
        let case = unrefused(table, generator);
        let expected = run_reference(&case, watched);
        high_names::count(&expected.1, &mut shown);
        if watched {
            high_names::count_recorded(&expected.2, &mut shown);
        }
        (expected, run_c(&case, watched))
    });
    assert!(shown.values().all(|&count| count > 0), "{what}: shown by none of the memories: {shown:?}");
    println!("{what}: memories that show names above a byte: {shown:?}");
    numbers
}

type Check = fn(&[u8]) -> Answer;

fn compare_checks(what: &str, expected: Check, found: Check, make: fn(&mut Generator) -> Vec<u8>) -> Numbers {
    compare_all(what, |generator| {
        let table = make(generator);
        ((expected(&table), vec![], vec![]), (found(&table), vec![], vec![]))
    })
}

/// Source tables, one in four of them damaged, with outputs that are long enough or too short.
fn compare_translations() -> Numbers {
    compare_all("source tables, translator", |generator| {
        let damaged = generator.random.chance(25);
        let table = if damaged { generator.damaged_source() } else { generator.accepted_source() };
        let count = translation(&table).map_or(1, |translation| translation.records.len() as u32);
        let short = generator.random.chance(20);
        let mut expected = if short { generator.short_output(count) } else { generator.output(count) };
        let mut found = expected.clone();
        let answers = (translate(&table, &mut expected), c::translate(&table, &mut found));
        ((answers.0, expected, vec![]), (answers.1, found, vec![]))
    })
}

/// Every number that a call may answer has come at least once.
fn all_met(what: &str, met: Numbers, expected: &[RangeInclusive<u32>]) {
    let expected: Numbers = expected.iter().cloned().flatten().collect();
    assert_eq!(met, expected, "{what}: the numbers that came, and those that there are");
    println!("{what}: every number that it may answer came");
}

fn compare_plain() {
    let mut met = compare_accepted("accepted programs, plain run", false, Generator::accepted_source);
    met.extend(compare_runs("source tables, plain run", false, |generator| generator.source_case()));
    met.extend(compare_accepted("programs that compare pointers, plain run", false, Generator::comparing_source));
    met.extend(compare_many_names("programs after many names, plain run", false, Generator::many_names_source));
    all_met("plain run", met, &[0..=9, 21..=21, 30..=33, 40..=47, 50..=50]);
}

fn compare_watched() {
    let mut met = compare_runs("target tables, watched run", true, |generator| generator.target_case());
    met.extend(compare_accepted("targets that compare pointers, watched run", true, Generator::comparing_target));
    met.extend(compare_many_names("targets after many names, watched run", true, Generator::many_names_target));
    all_met("watched run", met, &[0..=7, 9..=9, 21..=22, 30..=33, 40..=50]);
}

fn main() {
    compare_plain();
    compare_watched();
    let (source, target) = ("damaged sources, checker", "damaged targets, checker");
    let met = compare_checks(source, checker::check_source, c::check_source, Generator::damaged_source);
    all_met("source checker", met, &[0..=8]);
    let met = compare_checks(target, checker::check_target, c::check_target, Generator::damaged_target);
    all_met("target checker", met, &[0..=7]);
    all_met("translator", compare_translations(), &[0..=8, 20..=20]);
    deep::compare();
}
