//! The figures of document 01, as document 02 changes them, and the one placing rule that both memories share.

pub const RECORD_BYTES: usize = 16;
pub const SOURCE_RECORDS: usize = 256;
pub const TARGET_RECORDS: usize = 4096;
pub const VARIABLES: usize = 64;
pub const TEMPORARIES: usize = 64;

/// 02 §5: "Names run from 1 to 4,095."
pub const NAMES: usize = 4095;
pub const CELLS: usize = 1024;
pub const BLOCK_BYTES: usize = 8;
pub const CELL_BYTES: usize = 16;
/// The bytes of all block records; behind them stand the cells, or the marks.
pub const BLOCKS_BYTES: usize = NAMES * BLOCK_BYTES;
pub const EXECUTION_BYTES: usize = BLOCKS_BYTES + CELLS * CELL_BYTES;
pub const OBSERVATION_BYTES: usize = BLOCKS_BYTES + CELLS;

pub const INPUT_BYTES: usize = 8;
pub const INPUTS: usize = 256;

/// "A block gets the lowest run of free cells that holds it": the first place of that run.
pub fn lowest_run(free: impl Iterator<Item = bool>, length: usize) -> Option<usize> {
    let mut run = 0;
    for (place, is_free) in free.enumerate() {
        run = if is_free { run + 1 } else { 0 };
        if run == length {
            return Some(place + 1 - length);
        }
    }
    None
}
