//! The execution memory: blocks by name, cells by place, and the byte image of both.

use crate::answer::{
    BAD_FREE, DEAD_BLOCK, NOT_LIVE, NO_CELLS, NO_NAMES, OUTSIDE_BLOCK, SIZE_BELOW_ONE,
    UNDEFINED_READ,
};
use crate::limits::{
    lowest_run, BLOCKS_BYTES, BLOCK_BYTES, CELLS, CELL_BYTES, EXECUTION_BYTES, NAMES,
};
use crate::value::{Compared, Pointer, Value};

#[derive(Debug, Clone, Copy, PartialEq, Eq)]
pub enum State {
    Fixed,
    Freeable,
    Dead,
}

#[derive(Debug, Clone, Copy, PartialEq, Eq)]
pub struct Block {
    pub state: State,
    pub first: usize,
    pub length: usize,
}

#[derive(Debug, Clone, Copy, PartialEq, Eq)]
pub struct Cell {
    pub owner: u32,
    pub value: Value,
}

/// The block of name n stands at n - 1, so names come "in rising order and never again".
#[derive(Debug, Clone)]
pub struct Memory {
    blocks: Vec<Block>,
    cells: Vec<Option<Cell>>,
    /// Adjusted where a block is made or ended, so that no ending has to count.
    free_cells: u32,
    /// Kept for the one who asks why a run ended, both this and the next; the memory is the same without them.
    astray: std::cell::Cell<Option<Pointer>>,
    compared: std::cell::Cell<Option<Compared>>,
}

impl Memory {
    pub fn cleared() -> Memory {
        Memory {
            blocks: Vec::new(),
            cells: vec![None; CELLS],
            free_cells: CELLS as u32,
            astray: std::cell::Cell::new(None),
            compared: std::cell::Cell::new(None),
        }
    }

    /// "block 1 is its cell, pointing to block 2, which holds the inputs."
    pub fn with_inputs(inputs: &[i64]) -> Result<Memory, u32> {
        let mut memory = Memory::cleared();
        let variable = memory.new_block(State::Fixed, 1)?;
        let block = memory.new_block(State::Fixed, inputs.len() as i64)?;
        memory.store(variable, Value::Pointer(block))?;
        for (offset, &input) in (0..).zip(inputs) {
            memory.store(Pointer { offset, ..block }, Value::Integer(input))?;
        }
        Ok(memory)
    }

    pub fn blocks(&self) -> &[Block] {
        &self.blocks
    }

    pub fn cells(&self) -> &[Option<Cell>] {
        &self.cells
    }

    /// The pointer of the last read or store that led to no cell, as it was when tried.
    pub fn astray(&self) -> Option<Pointer> {
        self.astray.get()
    }

    /// The comparison that ended a run 47.
    pub fn compared(&self) -> Option<Compared> {
        self.compared.get()
    }

    pub fn keep_compared(&self, compared: Compared) {
        self.compared.set(Some(compared));
    }

    /// The running value: "after each step it is the number of cells of kind 0".
    pub fn free_cells(&self) -> u32 {
        self.free_cells
    }

    /// The same by looking at every cell, for who holds the running value against it.
    pub fn count_free_cells(&self) -> u32 {
        self.cells.iter().filter(|cell| cell.is_none()).count() as u32
    }

    /// "at a new block 45, 31, 30." Its cells are undefined.
    pub fn new_block(&mut self, state: State, size: i64) -> Result<Pointer, u32> {
        if size < 1 {
            return Err(SIZE_BELOW_ONE);
        }
        if self.blocks.len() >= NAMES {
            return Err(NO_NAMES);
        }
        let length = usize::try_from(size).map_err(|_| NO_CELLS)?;
        let free = self.cells.iter().map(Option::is_none);
        let first = lowest_run(free, length).ok_or(NO_CELLS)?;
        self.blocks.push(Block {
            state,
            first,
            length,
        });
        let owner = self.blocks.len() as u32;
        self.cells[first..first + length].fill(Some(Cell {
            owner,
            value: Value::Undefined,
        }));
        self.free_cells -= length as u32;
        Ok(Pointer {
            name: owner,
            offset: 0,
        })
    }

    /// Ends a live block: its cells serve again, its name does not.
    pub fn end_block(&mut self, name: u32) {
        let Some(index) = index(name).filter(|&index| index < self.blocks.len()) else {
            return;
        };
        let block = self.blocks[index];
        self.cells[block.first..block.first + block.length].fill(None);
        self.free_cells += block.length as u32;
        self.blocks[index] = Block {
            state: State::Dead,
            first: 0,
            length: 0,
        };
    }

    /// 46 unless it is "the first cell of a live freeable block".
    pub fn free(&mut self, pointer: Pointer) -> Result<(), u32> {
        match self.live(pointer.name) {
            Some(block) if block.state == State::Freeable && pointer.offset == 0 => {
                self.end_block(pointer.name);
                Ok(())
            }
            _ => Err(BAD_FREE),
        }
    }

    pub fn read(&self, pointer: Pointer) -> Result<Value, u32> {
        let place = self.tried(pointer)?;
        match self.contents(place) {
            Value::Undefined => Err(UNDEFINED_READ),
            value => Ok(value),
        }
    }

    pub fn store(&mut self, pointer: Pointer, value: Value) -> Result<(), u32> {
        let place = self.tried(pointer)?;
        self.cells[place] = Some(Cell {
            owner: pointer.name,
            value,
        });
        Ok(())
    }

    pub fn valid(&self, pointer: Pointer) -> bool {
        self.place(pointer).is_ok()
    }

    /// "valid and not undefined, otherwise false."
    pub fn initialised(&self, pointer: Pointer) -> bool {
        self.place(pointer)
            .is_ok_and(|place| self.contents(place) != Value::Undefined)
    }

    pub fn base(&self, pointer: Pointer) -> Result<Pointer, u32> {
        self.live(pointer.name).ok_or(NOT_LIVE)?;
        Ok(Pointer {
            offset: 0,
            ..pointer
        })
    }

    pub fn offset(&self, pointer: Pointer) -> Result<i64, u32> {
        self.live(pointer.name).ok_or(NOT_LIVE)?;
        Ok(pointer.offset)
    }

    pub fn length(&self, pointer: Pointer) -> Result<i64, u32> {
        let block = self.live(pointer.name).ok_or(NOT_LIVE)?;
        Ok(block.length as i64)
    }

    /// Whether the pointer's block is live, wherever its offset lies.
    pub fn is_live(&self, pointer: Pointer) -> bool {
        self.live(pointer.name).is_some()
    }

    fn contents(&self, place: usize) -> Value {
        self.cells[place].map_or(Value::Undefined, |cell| cell.value)
    }

    fn live(&self, name: u32) -> Option<Block> {
        let block = *self.blocks.get(index(name)?)?;
        (block.state != State::Dead).then_some(block)
    }

    /// The cell that a pointer leads to. 42 means "that the block is dead"; 50 is "found after 42".
    fn place(&self, pointer: Pointer) -> Result<usize, u32> {
        let block = self.live(pointer.name).ok_or(DEAD_BLOCK)?;
        match usize::try_from(pointer.offset) {
            Ok(offset) if offset < block.length => Ok(block.first + offset),
            _ => Err(OUTSIDE_BLOCK),
        }
    }

    /// The cell of a read or store, whose pointer is remembered where there is none.
    fn tried(&self, pointer: Pointer) -> Result<usize, u32> {
        let place = self.place(pointer);
        place.inspect_err(|_| self.astray.set(Some(pointer)))
    }

    /// "4,095 block records" of 8 bytes, then 1,024 cells of 16; what was never given stays 0.
    pub fn image(&self) -> Vec<u8> {
        let mut image = vec![0; EXECUTION_BYTES];
        let (blocks, cells) = image.split_at_mut(BLOCKS_BYTES);
        for (bytes, block) in blocks.chunks_mut(BLOCK_BYTES).zip(&self.blocks) {
            bytes.copy_from_slice(&block_bytes(block));
        }
        for (bytes, cell) in cells.chunks_mut(CELL_BYTES).zip(&self.cells) {
            bytes.copy_from_slice(&cell_bytes(cell));
        }
        image
    }
}

fn index(name: u32) -> Option<usize> {
    usize::try_from(name).ok()?.checked_sub(1)
}

/// State, 0, first cell in two bytes, length in two, 0, 0.
fn block_bytes(block: &Block) -> [u8; 8] {
    let state = match block.state {
        State::Fixed => 1,
        State::Freeable => 2,
        State::Dead => 3,
    };
    let [first_low, first_high] = (block.first as u16).to_le_bytes();
    let [length_low, length_high] = (block.length as u16).to_le_bytes();
    [
        state,
        0,
        first_low,
        first_high,
        length_low,
        length_high,
        0,
        0,
    ]
}

/// Kind, 0, owner in two bytes, pointed-to name in two, 0, 0, integer or offset in 8.
fn cell_bytes(cell: &Option<Cell>) -> [u8; 16] {
    let Some(cell) = cell else { return [0; 16] };
    let (kind, name, number) = match cell.value {
        Value::Undefined => (1, 0, 0),
        Value::Integer(integer) => (2, 0, integer),
        Value::Pointer(pointer) => (3, pointer.name, pointer.offset),
    };
    let mut bytes = [0; 16];
    bytes[0] = kind;
    bytes[2..4].copy_from_slice(&(cell.owner as u16).to_le_bytes());
    bytes[4..6].copy_from_slice(&(name as u16).to_le_bytes());
    bytes[8..].copy_from_slice(&number.to_le_bytes());
    bytes
}
