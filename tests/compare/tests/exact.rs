//! Every function on buffers of their exact length, for a memory checker: tests/valgrind.sh runs
//! these cases under one, which then knows every byte that a call may touch.

use compare::lent::EXACT;
use compare::{agree, numbers, unrefused};
use reference::translator::translation;

const CASES: u64 = 300;

#[test]
fn checkers() {
    numbers(51, CASES, |generator, what| {
        [
            agree::check_source(&generator.accepted_source(), EXACT, what),
            agree::check_source(&generator.damaged_source(), EXACT, what),
            agree::check_target(&generator.target(), EXACT, what),
            agree::check_target(&generator.damaged_target(), EXACT, what),
        ]
    });
}

#[test]
fn translator() {
    numbers(52, CASES, |generator, what| {
        let table = generator.source_case().table;
        let exact = translation(&table).map_or(16, |translation| translation.records.len() * 16);
        [exact - 1, exact, exact + 40]
            .map(|length| agree::translate(&table, &generator.random.bytes(length), EXACT, what))
    });
}

#[test]
fn plain_run() {
    numbers(53, CASES, |generator, what| {
        [agree::run_plain(&generator.source_case(), EXACT, what)]
    });
}

#[test]
fn watched_run() {
    numbers(54, CASES, |generator, what| {
        [agree::run_watched(&generator.target_case(), EXACT, what)]
    });
}

/// The C host's function is told no length of the table.
#[test]
fn used_pointer() {
    numbers(55, CASES, |generator, what| {
        let case = unrefused(generator.astray_source(), generator);
        [agree::used_pointer(&case, EXACT, what)]
    });
}
