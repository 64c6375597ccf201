//! The observation memory, reached through its nine calls only, and its byte image.

use crate::answer::{CONTRADICTION, NOT_LIVE};
use crate::limits::{lowest_run, BLOCKS_BYTES, BLOCK_BYTES, CELLS, NAMES, OBSERVATION_BYTES};
use crate::value::Pointer;

#[derive(Debug, Clone, Copy, PartialEq, Eq)]
pub enum Observed {
    Unused,
    Live { first: usize, length: usize },
    Dead,
}

#[derive(Debug, Clone, PartialEq, Eq)]
pub struct Observation {
    /// The record of name n stands at n - 1, up to the highest name that was ever recorded.
    blocks: Vec<Observed>,
    /// A mark that lies in no live block is free.
    marks: Vec<Option<bool>>,
}

impl Observation {
    pub fn cleared() -> Observation {
        Observation {
            blocks: Vec::new(),
            marks: vec![None; CELLS],
        }
    }

    /// Kind 68. 48 for "store not at offset 0, of a known name, below 1 or without marks".
    pub fn store_block(&mut self, pointer: Pointer, length: i64) -> Result<(), u32> {
        let index = index(pointer.name).ok_or(CONTRADICTION)?;
        let known = self.record(index) != Observed::Unused;
        if pointer.offset != 0 || known || length < 1 {
            return Err(CONTRADICTION);
        }
        let length = usize::try_from(length).map_err(|_| CONTRADICTION)?;
        let free = self.marks.iter().map(Option::is_none);
        let first = lowest_run(free, length).ok_or(CONTRADICTION)?;
        self.blocks
            .resize(self.blocks.len().max(index + 1), Observed::Unused);
        self.blocks[index] = Observed::Live { first, length };
        self.marks[first..first + length].fill(Some(false));
        Ok(())
    }

    /// Kind 69. 48 for "delete not at offset 0 of a live block"; the marks are cleared.
    pub fn delete_block(&mut self, pointer: Pointer) -> Result<(), u32> {
        let index = index(pointer.name).ok_or(CONTRADICTION)?;
        match self.record(index) {
            Observed::Live { first, length } if pointer.offset == 0 => {
                self.marks[first..first + length].fill(None);
                self.blocks[index] = Observed::Dead;
                Ok(())
            }
            _ => Err(CONTRADICTION),
        }
    }

    /// Kind 70. 48 for "initialise outside one".
    pub fn initialise(&mut self, pointer: Pointer) -> Result<(), u32> {
        let place = self.place(pointer).ok_or(CONTRADICTION)?;
        self.marks[place] = Some(true);
        Ok(())
    }

    pub fn valid(&self, pointer: Pointer) -> bool {
        self.place(pointer).is_some()
    }

    pub fn initialised(&self, pointer: Pointer) -> bool {
        self.place(pointer)
            .is_some_and(|place| self.marks[place] == Some(true))
    }

    pub fn base(&self, pointer: Pointer) -> Result<Pointer, u32> {
        self.live(pointer.name).ok_or(NOT_LIVE)?;
        Ok(Pointer {
            offset: 0,
            ..pointer
        })
    }

    pub fn offset(&self, pointer: Pointer) -> Result<i64, u32> {
        self.live(pointer.name).ok_or(NOT_LIVE)?;
        Ok(pointer.offset)
    }

    pub fn length(&self, pointer: Pointer) -> Result<i64, u32> {
        let (_, length) = self.live(pointer.name).ok_or(NOT_LIVE)?;
        Ok(length as i64)
    }

    /// The ninth call, which 63 asks: a block never recorded is not live.
    pub fn is_live(&self, pointer: Pointer) -> bool {
        self.live(pointer.name).is_some()
    }

    fn record(&self, index: usize) -> Observed {
        self.blocks.get(index).copied().unwrap_or(Observed::Unused)
    }

    fn live(&self, name: u32) -> Option<(usize, usize)> {
        match self.record(index(name)?) {
            Observed::Live { first, length } => Some((first, length)),
            _ => None,
        }
    }

    fn place(&self, pointer: Pointer) -> Option<usize> {
        let (first, length) = self.live(pointer.name)?;
        let offset = usize::try_from(pointer.offset).ok()?;
        (offset < length).then(|| first + offset)
    }

    /// "4,095 block records", then 1,024 marks of one byte.
    pub fn image(&self) -> Vec<u8> {
        let mut image = vec![0; OBSERVATION_BYTES];
        let (blocks, marks) = image.split_at_mut(BLOCKS_BYTES);
        for (bytes, block) in blocks.chunks_mut(BLOCK_BYTES).zip(&self.blocks) {
            bytes.copy_from_slice(&block_bytes(*block));
        }
        for (byte, mark) in marks.iter_mut().zip(&self.marks) {
            *byte = u8::from(*mark == Some(true));
        }
        image
    }
}

/// A name no memory has is "a block never recorded".
fn index(name: u32) -> Option<usize> {
    usize::try_from(name)
        .ok()?
        .checked_sub(1)
        .filter(|&index| index < NAMES)
}

fn block_bytes(block: Observed) -> [u8; 8] {
    match block {
        Observed::Unused => [0; 8],
        Observed::Dead => [2, 0, 0, 0, 0, 0, 0, 0],
        Observed::Live { first, length } => {
            let [first_low, first_high] = (first as u16).to_le_bytes();
            let [length_low, length_high] = (length as u16).to_le_bytes();
            [1, 0, first_low, first_high, length_low, length_high, 0, 0]
        }
    }
}
