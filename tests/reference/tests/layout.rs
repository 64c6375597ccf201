//! The bytes of both memories for one small program, written out by hand.

use reference::builder::Builder;
use reference::host::{block, cell, inputs, mirror, places, plain, translated, watched};
use reference::Answer;

/// let 5 in (5 = new 2; free 5; 5 = new 3; *5 = -2; *(5+1) = &5 - 3; assert false).
fn program() -> Builder {
    let mut b = Builder::source();
    let first = b.new_in(5, 2);
    let free = b.free_variable(5);
    let second = b.new_in(5, 3);
    let pointer = b.read_variable(5);
    let place = b.pointed(pointer);
    let value = b.literal(-2);
    let integer = b.take(place, value);
    let pointer = b.shifted_variable(5, 1);
    let place = b.pointed(pointer);
    let variable = b.address_of_variable(5);
    let by = b.literal(-3);
    let value = b.shift(variable, by);
    let pointer = b.take(place, value);
    let falsehood = b.compare_literals(7, 0, 1);
    let assertion = b.assert(falsehood);
    let body = b.sequence(&[first, free, second, integer, pointer, assertion]);
    b.let_in(5, body);
    b
}

/// 02 §5: "Each memory has 4,095 block records", of 8 bytes.
const BLOCKS: usize = 32_760;

/// The given rows, then zeros up to the length.
fn rows<const WIDTH: usize>(rows: &[[u8; WIDTH]], length: usize) -> Vec<u8> {
    let mut bytes: Vec<u8> = rows.iter().flatten().copied().collect();
    bytes.resize(length, 0);
    bytes
}

fn execution_memory() -> Vec<u8> {
    let blocks = [
        [1, 0, 0, 0, 1, 0, 0, 0],
        [1, 0, 1, 0, 2, 0, 0, 0],
        [1, 0, 3, 0, 1, 0, 0, 0],
        [3, 0, 0, 0, 0, 0, 0, 0],
        [2, 0, 4, 0, 3, 0, 0, 0],
    ];
    let cells = [
        [3, 0, 1, 0, 2, 0, 0, 0, 0, 0, 0, 0, 0, 0, 0, 0],
        [2, 0, 2, 0, 0, 0, 0, 0, 7, 0, 0, 0, 0, 0, 0, 0],
        [2, 0, 2, 0, 0, 0, 0, 0, 9, 1, 0, 0, 0, 0, 0, 0],
        [3, 0, 3, 0, 5, 0, 0, 0, 0, 0, 0, 0, 0, 0, 0, 0],
        [
            2, 0, 5, 0, 0, 0, 0, 0, 254, 255, 255, 255, 255, 255, 255, 255,
        ],
        [
            3, 0, 5, 0, 3, 0, 0, 0, 253, 255, 255, 255, 255, 255, 255, 255,
        ],
        [1, 0, 5, 0, 0, 0, 0, 0, 0, 0, 0, 0, 0, 0, 0, 0],
    ];
    [rows(&blocks, BLOCKS), rows(&cells, 16_384)].concat()
}

fn observation_memory() -> Vec<u8> {
    let blocks = [
        [1, 0, 0, 0, 1, 0, 0, 0],
        [1, 0, 1, 0, 2, 0, 0, 0],
        [1, 0, 3, 0, 1, 0, 0, 0],
        [2, 0, 0, 0, 0, 0, 0, 0],
        [1, 0, 4, 0, 3, 0, 0, 0],
    ];
    [rows(&blocks, BLOCKS), rows(&[[1, 1, 1, 1, 1, 1, 0]], 1024)].concat()
}

#[test]
fn both_memories_have_the_bytes_written_here() {
    let b = program();
    let assertion = b
        .records()
        .iter()
        .position(|record| record.kind == 48)
        .unwrap() as u32
        + 1;
    let expected = Answer::ending(33, assertion, 3, 1024 - 7);
    let inputs = inputs(&[7, 265]);
    let (answer, memory) = plain(&b.table(), &inputs, 3);
    assert_eq!(answer, expected);
    assert_eq!(memory.len(), 49_144);
    assert_eq!(memory, execution_memory());
    let target = translated(&b.table()).expect("accepted");
    let (answer, memory, observation) = watched(&target, &inputs, 3);
    assert_eq!(answer, expected);
    assert_eq!(memory, execution_memory());
    assert_eq!(observation.len(), 33_784);
    assert_eq!(observation, observation_memory());
}

#[test]
fn the_observation_memory_written_here_mirrors_the_execution_memory() {
    assert_eq!(mirror(&execution_memory()), observation_memory());
}

#[test]
fn first_and_length_take_two_bytes_each() {
    let mut b = Builder::source();
    let first = b.new_in(0, 300);
    let second = b.new_in(0, 467);
    b.then(first, second);
    let (answer, memory) = plain(&b.table(), &inputs(&[1; 256]), 0);
    assert_eq!(answer, Answer::ending(0, 0, 0, 0));
    let blocks = [
        [1, 0, 0, 0, 1, 0, 0, 0],
        [1, 0, 1, 0, 0, 1, 0, 0],
        [2, 0, 1, 1, 44, 1, 0, 0],
        [2, 0, 45, 2, 211, 1, 0, 0],
    ];
    assert_eq!(memory[..BLOCKS], rows(&blocks, BLOCKS));
}

#[test]
fn a_let_that_ended_leaves_a_dead_name_and_free_cells() {
    let mut b = Builder::source();
    let take = b.take_literal(8, 77);
    b.let_in(8, take);
    let (answer, memory) = plain(&b.table(), &inputs(&[1]), 0);
    assert_eq!(answer, Answer::ending(0, 0, 0, 1022));
    assert_eq!(block(&memory, 3), [3, 0, 0, 0, 0, 0, 0, 0]);
    assert!(places(&memory)[2 * 16..].iter().all(|&byte| byte == 0));
}

/// let 1 in (names to 4,093 given and ended; 1 = new 3; *1 = -2; *(1+1) = 1 + 1; let 2 in assert false): the let has
/// name 3, the block 4,094 and the inner let 4,095.
fn program_of_high_names() -> Builder {
    let mut b = Builder::source();
    let given = b.give_names(4_093 - 3);
    let new = b.new_in(1, 3);
    let pointer = b.read_variable(1);
    let place = b.pointed(pointer);
    let value = b.literal(-2);
    let integer = b.take(place, value);
    let pointer = b.shifted_variable(1, 1);
    let place = b.pointed(pointer);
    let value = b.shifted_variable(1, 1);
    let pointer = b.take(place, value);
    let falsehood = b.compare_literals(7, 0, 1);
    let assertion = b.assert(falsehood);
    let last = b.let_in(2, assertion);
    let body = b.sequence(&[given, new, integer, pointer, last]);
    b.let_in(1, body);
    b
}

#[test]
fn owner_and_pointed_to_name_take_two_bytes_each() {
    let source = program_of_high_names().table();
    let target = translated(&source).expect("accepted");
    let inputs = inputs(&[7]);
    let (answer, memory) = plain(&source, &inputs, 300);
    assert_eq!((answer.number, answer.free_cells), (33, 1024 - 7));
    let cells = [
        [3, 0, 3, 0, 254, 15, 0, 0, 0, 0, 0, 0, 0, 0, 0, 0],
        [
            2, 0, 254, 15, 0, 0, 0, 0, 254, 255, 255, 255, 255, 255, 255, 255,
        ],
        [3, 0, 254, 15, 254, 15, 0, 0, 1, 0, 0, 0, 0, 0, 0, 0],
        [1, 0, 254, 15, 0, 0, 0, 0, 0, 0, 0, 0, 0, 0, 0, 0],
        [1, 0, 255, 15, 0, 0, 0, 0, 0, 0, 0, 0, 0, 0, 0, 0],
    ];
    assert_eq!([2, 3, 4, 5, 6].map(|at| cell(&memory, at)), cells);
    assert_eq!(block(&memory, 4_094), [2, 0, 3, 0, 3, 0, 0, 0]);
    assert_eq!(block(&memory, 4_095), [1, 0, 6, 0, 1, 0, 0, 0]);
    let (same, second, observation) = watched(&target, &inputs, 300);
    assert_eq!((same, &second), (answer, &memory));
    assert_eq!(block(&observation, 4_094), [1, 0, 3, 0, 3, 0, 0, 0]);
    assert_eq!(block(&observation, 4_095), [1, 0, 6, 0, 1, 0, 0, 0]);
    assert_eq!(places(&observation)[..8], [1, 1, 1, 1, 1, 0, 0, 0]);
}
