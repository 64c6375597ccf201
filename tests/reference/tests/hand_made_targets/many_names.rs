//! Targets that record blocks whose names one byte does not hold.

use crate::target::{ends, Target};
use reference::builder::Builder;
use reference::host::{block, inputs, places, watched};
use reference::limits::NAMES;
use reference::naming::recorded_lets;

/// Two temporaries take pointers to blocks of 2 and 3 cells, named 3 and 259, which are recorded or not.
fn twins(t: &mut Target, [first, second]: [u8; 2], recorded: [bool; 2]) -> &mut Target {
    t.new_block(first, 2);
    if recorded[0] {
        t.integer(first + 1, 2).statement(68, first, 0);
    }
    t.names(255).new_block(second, 3);
    if recorded[1] {
        t.integer(second + 1, 3).statement(68, second, 0);
    }
    t
}

#[test]
fn a_name_256_from_a_recorded_one_is_not_recorded() {
    for (asked, recorded) in [(2, [true, false]), (1, [false, true])] {
        for (query, expected) in [(1, 33), (2, 33), (3, 47), (4, 47), (5, 47)] {
            ends(expected, |t| {
                twins(t, [1, 2], recorded);
                match expected {
                    33 => t.statement(64, asked - 1, query).here(67, asked - 1, 0),
                    _ => t.here(64, asked - 1, query),
                };
            });
        }
        for call in [69, 70] {
            ends(48, |t| {
                twins(t, [1, 2], recorded).here(call, asked, 0).end()
            });
        }
        ends(47, |t| twins(t, [1, 2], recorded).here(63, 0, 7).end());
    }
}

#[test]
fn of_two_recorded_names_256_apart_each_is_deleted_by_itself() {
    for (deleted, kept) in [(1, 2), (2, 1)] {
        for (called, expected) in [(kept, 0), (deleted, 48)] {
            for kind in [69, 70] {
                ends(expected, |t| {
                    twins(t, [1, 2], [true, true]).statement(69, deleted, 0);
                    t.here(kind, called, 0);
                });
            }
        }
        ends(47, |t| {
            twins(t, [1, 2], [true, true]).statement(69, deleted, 0);
            t.here(63, 0, 7);
        });
    }
}

#[test]
fn lengths_and_comparisons_go_by_the_whole_name() {
    // Both live, and unequal: t0 takes 0.
    ends(33, |t| {
        twins(t, [1, 2], [true, true]).statement(63, 0, 7);
        t.here(67, 0, 0);
    });
    for (temporary, length) in [(2, 2), (5, 3)] {
        ends(0, |t| {
            twins(t, [2, 5], [true, true]).statement(64, temporary - 1, 5);
            t.integer(temporary, length).statement(63, temporary - 2, 7);
            t.here(67, temporary - 2, 0);
        });
    }
}

#[test]
fn every_name_may_be_recorded() {
    let mut t = Target {
        b: Builder::target(1),
        parts: Vec::new(),
    };
    let variables: Vec<u8> = (32..64).collect();
    let given = t.b.give_names_by(recorded_lets, NAMES - 3, &variables);
    t.parts.push(given);
    t.new_block(0, 2).integer(1, 2);
    t.statement(68, 0, 0).statement(70, 0, 0);
    let parts = t.parts.clone();
    t.b.sequence(&parts);
    let (answer, _, observation) = watched(&t.b.table(), &inputs(&[7, 9]), 200);
    assert_eq!(answer.number, 0);
    // Name 3 is the let's that counts the turns.
    assert_eq!(block(&observation, 3), [0; 8]);
    for name in 4..NAMES {
        assert_eq!(block(&observation, name), [2, 0, 0, 0, 0, 0, 0, 0]);
    }
    assert_eq!(block(&observation, NAMES), [1, 0, 3, 0, 2, 0, 0, 0]);
    assert_eq!(places(&observation)[..6], [1, 1, 1, 1, 0, 0]);
}
