//! What the bytes that runs leave show of names that one byte does not hold, for tests that count what they reach.

use crate::host::{block, places};
use crate::limits::{BLOCKS_BYTES, BLOCK_BYTES, CELL_BYTES, NAMES};
use std::collections::{BTreeMap, BTreeSet};

/// The highest name that a byte holds.
pub const BYTE: usize = 255;

/// Of a run, by the memories that it leaves.
#[derive(Debug, Clone, Copy, PartialEq, Eq, PartialOrd, Ord)]
pub enum Shown {
    NameAboveByte,
    NameAbove4000,
    EveryName,
    /// A cell of a live block with such a name.
    OwnerAboveByte,
    PointerAboveByte,
    /// A value in a block with such a name that a 42 made: a pointer to it was stored, read back and used.
    UsedPointerAboveByte,
    /// Two live blocks whose names have equal low bytes.
    Twins,
    /// In the observation memory.
    RecordedAboveByte,
}

/// How many runs showed each.
pub type Counts = BTreeMap<Shown, u32>;

/// A cell that is not free.
struct Held {
    kind: u8,
    owner: usize,
    pointed: usize,
}

fn held(memory: &[u8]) -> Vec<Held> {
    let cells = places(memory).chunks(CELL_BYTES);
    let held = cells.filter(|cell| cell[0] > 0).map(|cell| Held {
        kind: cell[0],
        owner: usize::from(u16::from_le_bytes([cell[2], cell[3]])),
        pointed: usize::from(u16::from_le_bytes([cell[4], cell[5]])),
    });
    held.collect()
}

/// The names given: they rise, so the records of those never given are the last.
pub fn names_given(memory: &[u8]) -> usize {
    let states = memory[..BLOCKS_BYTES].iter().step_by(BLOCK_BYTES);
    states.take_while(|&&state| state != 0).count()
}

/// Whether two of the cells' owners have equal low bytes.
fn has_twins(cells: &[Held]) -> bool {
    let owners: BTreeSet<usize> = cells.iter().map(|cell| cell.owner).collect();
    let low_bytes: BTreeSet<u8> = owners.iter().map(|&owner| owner as u8).collect();
    low_bytes.len() < owners.len()
}

/// Adds what the execution memory shows.
pub fn count(memory: &[u8], counts: &mut Counts) {
    let (names, cells) = (names_given(memory), held(memory));
    let any = |wanted: &dyn Fn(&Held) -> bool| cells.iter().any(wanted);
    let is_used = |cell: &Held| cell.kind > 1 && block(memory, cell.owner)[0] == 2;
    let shown = [
        (Shown::NameAboveByte, names > BYTE),
        (Shown::NameAbove4000, names > 4_000),
        (Shown::EveryName, names == NAMES),
        (Shown::OwnerAboveByte, any(&|cell| cell.owner > BYTE)),
        (Shown::PointerAboveByte, any(&|cell| cell.pointed > BYTE)),
        (
            Shown::UsedPointerAboveByte,
            any(&|cell| cell.owner > BYTE && is_used(cell)),
        ),
        (Shown::Twins, has_twins(&cells)),
    ];
    for (shown, is_shown) in shown {
        *counts.entry(shown).or_default() += u32::from(is_shown);
    }
}

/// Adds what the observation memory shows.
pub fn count_recorded(observation: &[u8], counts: &mut Counts) {
    let above = &observation[BYTE * BLOCK_BYTES..BLOCKS_BYTES];
    let is_shown = above.iter().step_by(BLOCK_BYTES).any(|&state| state != 0);
    *counts.entry(Shown::RecordedAboveByte).or_default() += u32::from(is_shown);
}
