//! Lent buffers: refused calls write no byte, runs do not look at what a buffer held before.

use reference::builder::Builder;
use reference::checker::{check_source, check_target};
use reference::generator::Generator;
use reference::host::{inputs, GUARD};
use reference::plain::run_plain;
use reference::translator::translate;
use reference::watched::run_watched;
use reference::Answer;

fn skip(label: i64) -> Vec<u8> {
    let mut b = Builder::target(label);
    b.skip();
    b.table()
}

fn plain_refusal(table: &[u8], inputs: &[u8], length: usize) -> Answer {
    let mut memory = vec![GUARD; length];
    let answer = run_plain(table, inputs, 9, &mut memory);
    assert!(memory.iter().all(|&byte| byte == GUARD));
    answer
}

fn watched_refusal(table: &[u8], inputs: &[u8], lengths: (usize, usize)) -> Answer {
    let mut memory = vec![GUARD; lengths.0];
    let mut observation = vec![GUARD; lengths.1];
    let answer = run_watched(table, inputs, 9, &mut memory, &mut observation);
    assert!(memory.iter().chain(&observation).all(|&byte| byte == GUARD));
    answer
}

/// 02 §5: "21 tests for 49,144 bytes and 22 for 33,784."
const EXECUTION: usize = 49_144;
const OBSERVATION: usize = 33_784;

/// The lengths when there were 255 names.
const OLD_EXECUTION: usize = 18_424;
const OLD_OBSERVATION: usize = 3_064;

#[test]
fn a_plain_run_refuses_1_to_8_then_9_then_21() {
    let good = inputs(&[7]);
    for length in [0, EXECUTION - 1, EXECUTION + 1, OBSERVATION] {
        assert_eq!(plain_refusal(&skip(0), &good, length), Answer::of(21, 0));
        assert_eq!(plain_refusal(&skip(0), &[], length), Answer::of(9, 0));
        assert_eq!(plain_refusal(&[0; 16], &[], length), Answer::of(3, 1));
        assert_eq!(plain_refusal(&[], &[], length), Answer::of(1, 0));
    }
    assert_eq!(plain_refusal(&skip(0), &[], EXECUTION), Answer::of(9, 0));
    let mut memory = vec![GUARD; EXECUTION];
    assert_eq!(run_plain(&skip(0), &good, 9, &mut memory).number, 0);
}

#[test]
fn a_plain_run_refuses_8_too() {
    let mut b = Builder::source();
    let mut predicate = b.compare_literals(7, 0, 0);
    for _ in 0..62 {
        predicate = b.not(predicate);
    }
    b.assert(predicate);
    assert_eq!(plain_refusal(&b.table(), &[], EXECUTION), Answer::of(8, 4));
}

/// The refusal of a watched run on good inputs and memories of these lengths.
fn refused_by_lengths(execution: usize, observation: usize) -> Answer {
    watched_refusal(&skip(1), &inputs(&[7]), (execution, observation))
}

#[test]
fn a_watched_run_refuses_1_to_7_then_9_then_21_then_22() {
    for observation in [0, OBSERVATION - 1, OBSERVATION + 1, EXECUTION] {
        let refusal = refused_by_lengths(EXECUTION, observation);
        assert_eq!(refusal, Answer::of(22, 0));
    }
    for observation in [OBSERVATION - 1, OBSERVATION] {
        for execution in [EXECUTION - 1, EXECUTION + 1] {
            let refusal = refused_by_lengths(execution, observation);
            assert_eq!(refusal, Answer::of(21, 0));
        }
    }
    for lengths in [(0, 0), (EXECUTION, OBSERVATION)] {
        let refusal = |label| watched_refusal(&skip(label), &[0; 7], lengths);
        assert_eq!(refusal(1), Answer::of(9, 0));
        assert_eq!(refusal(0), Answer::of(4, 1));
    }
    let (mut memory, mut observation) = (vec![GUARD; EXECUTION], vec![GUARD; OBSERVATION]);
    let answer = run_watched(&skip(1), &inputs(&[7]), 9, &mut memory, &mut observation);
    assert_eq!(answer.number, 0);
}

/// "Old images are not read": their lengths are refused, and their bytes stay.
#[test]
fn memories_of_255_names_are_21_and_22() {
    let plain = plain_refusal(&skip(0), &inputs(&[7]), OLD_EXECUTION);
    assert_eq!(plain, Answer::of(21, 0));
    for (execution, observation, number) in [
        (OLD_EXECUTION, OLD_OBSERVATION, 21),
        (OLD_EXECUTION, OBSERVATION, 21),
        (EXECUTION, OLD_OBSERVATION, 22),
    ] {
        let refusal = refused_by_lengths(execution, observation);
        assert_eq!(refusal, Answer::of(number, 0));
    }
}

#[test]
fn inputs_are_1_to_256_of_8_bytes() {
    for length in [0, 1, 7, 9, 15, 2047, 2049, 2056] {
        let bytes = vec![0; length];
        assert_eq!(plain_refusal(&skip(0), &bytes, EXECUTION).number, 9);
        let refusal = watched_refusal(&skip(1), &bytes, (EXECUTION, OBSERVATION));
        assert_eq!(refusal.number, 9);
    }
    for length in [8, 16, 2040, 2048] {
        let mut memory = vec![GUARD; EXECUTION];
        let answer = run_plain(&skip(0), &vec![0; length], 0, &mut memory);
        assert_eq!(answer.number, 0);
    }
}

#[test]
fn a_refused_translation_leaves_its_output() {
    let mut generator = Generator::new(41);
    let mut refused = 0;
    for _ in 0..3_000 {
        let source = generator.damaged_source();
        let before = generator.random.bytes(700);
        let mut output = before.clone();
        let answer = translate(&source, &mut output);
        let check = check_source(&source);
        if answer.number != 0 {
            assert_eq!(output, before);
            assert!(answer == check || check.number == 0 && answer == Answer::of(20, 0));
            refused += 1;
        } else {
            let end = answer.record as usize * 16;
            assert_eq!(output[end..], before[end..]);
        }
    }
    assert!(refused > 2_000, "{refused}");
}

#[test]
fn a_run_depends_on_no_byte_that_its_memories_held() {
    let mut generator = Generator::new(42);
    let mut ran = 0;
    for _ in 0..1_500 {
        let case = generator.source_case();
        let mut memory = case.memory.clone();
        let answer = run_plain(&case.table, &case.inputs, case.fuel, &mut memory);
        let mut cleared = vec![0; case.memory.len()];
        assert_eq!(
            run_plain(&case.table, &case.inputs, case.fuel, &mut cleared),
            answer
        );
        if (1..=22).contains(&answer.number) {
            assert_eq!(memory, case.memory);
            assert_eq!((answer.fuel, answer.free_cells), (0, 0));
        } else {
            assert_eq!(memory, cleared);
            ran += 1;
        }
    }
    assert!(ran > 1_000, "{ran}");
}

#[test]
fn a_refused_watched_run_leaves_both_memories() {
    let mut generator = Generator::new(43);
    let mut refused = 0;
    for _ in 0..1_500 {
        let case = generator.target_case();
        let (mut memory, mut observation) = (case.memory.clone(), case.observation.clone());
        let answer = run_watched(
            &case.table,
            &case.inputs,
            case.fuel,
            &mut memory,
            &mut observation,
        );
        if (1..=22).contains(&answer.number) {
            assert_eq!((&memory, &observation), (&case.memory, &case.observation));
            let check = check_target(&case.table);
            assert!(answer == check || check.number == 0 && answer.number >= 9);
            refused += 1;
        }
    }
    assert!(refused > 100, "{refused}");
}
