//! The calls of the observation memory but the ninth, which comparisons ask.

use crate::target::{ends, number, Target};
use reference::builder::Builder;
use reference::host::{block, inputs, places, watched};
use reference::Answer;

#[test]
fn queries_ask_the_observation_memory_alone() {
    for query in 1..=5 {
        ends(49, |t| t.here(64, 0, query).end());
        ends(40, |t| t.integer(1, 0).here(64, 0, query).end());
        ends(0, |t| t.inputs(1, 0).here(64, 0, query).end());
        // Live in the execution memory, but never recorded.
        let unrecorded = if query <= 2 { 0 } else { 47 };
        ends(unrecorded, |t| t.new_block(1, 3).here(64, 0, query).end());
        // Live in the execution memory, but deleted from the record, fixed as it is.
        let deleted = number(|t| t.inputs(1, 0).statement(69, 1, 0).here(64, 0, query).end());
        assert_eq!(deleted, unrecorded);
    }
}

#[test]
fn queries_tell_what_the_record_holds() {
    let asked = |query: u16, by: i64| {
        number(|t| t.inputs(1, by).statement(64, 0, query).here(67, 0, 0).end())
    };
    assert_eq!(
        [asked(1, 0), asked(1, 1), asked(1, 2), asked(1, -1)],
        [0, 0, 33, 33]
    );
    assert_eq!([asked(2, 0), asked(2, 1), asked(2, 2)], [0, 0, 33]);
    assert_eq!([asked(4, 0), asked(4, -6)], [33, 0]);
    assert_eq!(asked(5, 70), 0);
    ends(33, |t| {
        t.new_block(1, 3).statement(64, 0, 1).here(67, 0, 0).end()
    });
}

#[test]
fn a_store_goes_49_40_48() {
    ends(49, |t| t.here(68, 0, 0).end());
    ends(49, |t| t.integer(0, 1).here(68, 0, 0).end());
    ends(49, |t| t.integer(1, 1).here(68, 0, 0).end());
    ends(40, |t| t.integer(0, 1).integer(1, 1).here(68, 0, 0).end());
    ends(40, |t| t.inputs(0, 0).inputs(1, 0).here(68, 0, 0).end());
    ends(40, |t| t.inputs(0, 5).inputs(1, 0).here(68, 0, 0).end());
}

#[test]
fn a_store_of_a_known_name_elsewhere_below_1_or_without_marks_is_48() {
    let store = |size: i64| {
        number(|t| {
            t.new_block(0, 3).integer(1, size).here(68, 0, 0);
        })
    };
    // Both input blocks take 3 marks.
    assert_eq!([1, 3, 1021, 1022].map(store), [0, 0, 0, 48]);
    assert_eq!([0, -1, i64::MIN, i64::MAX].map(store), [48; 4]);
    ends(48, |t| t.inputs(0, 0).integer(1, 2).here(68, 0, 0).end());
    let dead = |t: &mut Target| {
        t.inputs(0, 0)
            .integer(1, 2)
            .statement(69, 0, 0)
            .here(68, 0, 0);
    };
    ends(48, dead);
    let shifted = |t: &mut Target| {
        t.new_block(1, 3)
            .integer(2, 1)
            .statement(63, 0, 8)
            .integer(1, 3)
            .here(68, 0, 0);
    };
    ends(48, shifted);
}

#[test]
fn a_delete_is_48_unless_at_offset_0_of_a_live_record() {
    ends(49, |t| t.here(69, 0, 0).end());
    ends(40, |t| t.integer(0, 0).here(69, 0, 0).end());
    ends(48, |t| t.inputs(0, 1).here(69, 0, 0).end());
    ends(48, |t| t.new_block(0, 1).here(69, 0, 0).end());
    ends(48, |t| {
        t.inputs(0, 0).statement(69, 0, 0).here(69, 0, 0).end()
    });
    ends(0, |t| t.inputs(0, 0).here(69, 0, 0).end());
}

#[test]
fn an_initialise_is_48_outside_a_live_record() {
    ends(49, |t| t.here(70, 0, 0).end());
    ends(40, |t| t.integer(0, 0).here(70, 0, 0).end());
    for (by, expected) in [(-1, 48), (0, 0), (1, 0), (2, 48)] {
        ends(expected, |t| t.inputs(0, by).here(70, 0, 0).end());
    }
    ends(48, |t| t.new_block(0, 1).here(70, 0, 0).end());
    ends(48, |t| {
        t.inputs(0, 0).statement(69, 0, 0).here(70, 0, 0).end()
    });
}

/// Answer and observation memory of the watched run on inputs 7, 9.
fn observed(build: impl FnOnce(&mut Target)) -> (Answer, Vec<u8>) {
    let mut t = Target {
        b: Builder::target(1),
        parts: Vec::new(),
    };
    build(&mut t);
    let parts = t.parts.clone();
    t.b.sequence(&parts);
    let (answer, _, observation) = watched(&t.b.table(), &inputs(&[7, 9]), 5);
    (answer, observation)
}

#[test]
fn the_marks_of_a_deleted_block_are_0() {
    let (answer, observation) = observed(|t| {
        t.new_block(0, 2).integer(1, 2);
        t.statement(68, 0, 0)
            .statement(70, 0, 0)
            .statement(69, 0, 0);
    });
    assert_eq!(answer, Answer::ending(0, 0, 5, 1024 - 3 - 2));
    // The inputs' marks, and none where the block of 2 stood.
    assert_eq!(places(&observation)[..6], [1, 1, 1, 0, 0, 0]);
}

#[test]
fn deleted_marks_serve_again_from_the_lowest_run_and_start_at_0() {
    let (answer, observation) = observed(|t| {
        // Names 3 and 4 get 3 and 2 marks; those of name 3 are given back before name 5 comes.
        t.new_block(0, 3)
            .integer(1, 3)
            .statement(68, 0, 0)
            .statement(70, 0, 0);
        t.new_block(2, 2)
            .integer(3, 2)
            .statement(68, 2, 0)
            .statement(70, 2, 0);
        t.new_block(4, 9)
            .integer(5, 3)
            .statement(69, 0, 0)
            .statement(68, 4, 0);
    });
    assert_eq!(answer, Answer::ending(0, 0, 5, 1024 - 3 - 14));
    let block = |name| block(&observation, name);
    assert_eq!(block(3), [2, 0, 0, 0, 0, 0, 0, 0]);
    assert_eq!(block(4), [1, 0, 6, 0, 2, 0, 0, 0]);
    assert_eq!(block(5), [1, 0, 3, 0, 3, 0, 0, 0]);
    assert_eq!(places(&observation)[..10], [1, 1, 1, 0, 0, 0, 1, 0, 0, 0]);
}
