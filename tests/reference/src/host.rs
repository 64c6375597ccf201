//! What a host does around the entry points: it owns the buffers and lends them.

use crate::answer::Answer;
use crate::limits::{BLOCKS_BYTES, BLOCK_BYTES, CELL_BYTES, EXECUTION_BYTES, OBSERVATION_BYTES};
use crate::plain::run_plain;
use crate::record::table;
use crate::translator::translation;
use crate::watched::run_watched;

/// What a lent byte holds before a call, so that an untouched one is known again.
pub const GUARD: u8 = 0xA5;

/// Inputs as the host hands them over, 8 bytes each.
pub fn inputs(values: &[i64]) -> Vec<u8> {
    values
        .iter()
        .flat_map(|value| value.to_le_bytes())
        .collect()
}

/// A plain run on a memory of its own: the answer and the memory's bytes.
pub fn plain(table: &[u8], inputs: &[u8], fuel: u32) -> (Answer, Vec<u8>) {
    let mut memory = vec![GUARD; EXECUTION_BYTES];
    let answer = run_plain(table, inputs, fuel, &mut memory);
    (answer, memory)
}

/// A watched run on memories of its own: the answer and the bytes of both.
pub fn watched(table: &[u8], inputs: &[u8], fuel: u32) -> (Answer, Vec<u8>, Vec<u8>) {
    let mut memory = vec![GUARD; EXECUTION_BYTES];
    let mut observation = vec![GUARD; OBSERVATION_BYTES];
    let answer = run_watched(table, inputs, fuel, &mut memory, &mut observation);
    (answer, memory, observation)
}

/// Both runs of an accepted source, each with memories of its own. They must agree, and the observation memory must
/// mirror the execution memory wherever that is asked.
pub fn both(source: &[u8], inputs: &[u8], fuel: u32) -> (Answer, Vec<u8>) {
    let (answer, memory) = plain(source, inputs, fuel);
    let target = translated(source).expect("accepted");
    let (watched_answer, watched_memory, observation) = watched(&target, inputs, fuel);
    assert_eq!(answer, watched_answer);
    assert!(memory == watched_memory, "the execution memories differ");
    assert!(
        is_mirrored(answer, &memory, &observation),
        "no mirror of the execution memory"
    );
    (answer, memory)
}

/// The bytes of a translation, or the refusal by 1–8.
pub fn translated(source: &[u8]) -> Result<Vec<u8>, Answer> {
    translation(source).map(|translation| table(&translation.records))
}

/// Whether the observation memory that a translation leaves mirrors the execution memory. At 42 and 50 nothing is
/// asked, as a statement 42 whose own store ends so leaves its new block in the execution memory alone.
pub fn is_mirrored(answer: Answer, memory: &[u8], observation: &[u8]) -> bool {
    answer.led_nowhere() || observation == mirror(memory)
}

/// The record of a block, in the bytes of either memory.
pub fn block(memory: &[u8], name: usize) -> &[u8] {
    &memory[(name - 1) * BLOCK_BYTES..name * BLOCK_BYTES]
}

/// The cells of an execution memory's bytes, or the marks of an observation memory's.
pub fn places(memory: &[u8]) -> &[u8] {
    &memory[BLOCKS_BYTES..]
}

/// The record of a cell, in the bytes of an execution memory.
pub fn cell(memory: &[u8], index: usize) -> &[u8] {
    &places(memory)[index * CELL_BYTES..(index + 1) * CELL_BYTES]
}

/// The cells of kind 0 among the bytes of an execution memory.
pub fn free_cells(memory: &[u8]) -> u32 {
    let cells = places(memory).chunks(CELL_BYTES);
    cells.filter(|cell| cell[0] == 0).count() as u32
}

/// The observation memory that mirrors an execution memory, byte by byte: "For its block states
/// 0, 1, 2, 3 the observation states are 0, 1, 1, 2, with equal first and length".
pub fn mirror(memory: &[u8]) -> Vec<u8> {
    let (blocks, cells) = memory.split_at(BLOCKS_BYTES);
    let mut observation = blocks.to_vec();
    for state in observation.iter_mut().step_by(BLOCK_BYTES) {
        *state = [0, 1, 1, 2][usize::from(*state % 4)];
    }
    observation.extend(cells.chunks(CELL_BYTES).map(|cell| u8::from(cell[0] >= 2)));
    observation
}
