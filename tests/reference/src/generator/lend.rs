//! What a host lends: inputs, fuel and buffers, of right and of wrong lengths.

use super::Generator;
use crate::limits::{BLOCK_BYTES, EXECUTION_BYTES, INPUTS, NAMES, OBSERVATION_BYTES, RECORD_BYTES};
use crate::record::records;

impl Generator {
    /// Inputs that pass 9: mostly a few small ones.
    pub fn inputs(&mut self) -> Vec<u8> {
        let count = match self.random.below(20) {
            0 => INPUTS,
            1 => 1,
            2 => self.random.range(1, INPUTS as i64) as usize,
            _ => self.random.range(1, 6) as usize,
        };
        (0..count)
            .flat_map(|_| self.input().to_le_bytes())
            .collect()
    }

    fn input(&mut self) -> i64 {
        match self.random.below(12) {
            0 => self.random.pick(&[i64::MIN, i64::MAX, -1, 0]),
            1 => self.random.draw() as i64,
            _ => self.random.range(-5, 20),
        }
    }

    /// Inputs that 9 refuses: none, too many, or no multiple of 8 bytes.
    pub fn bad_inputs(&mut self) -> Vec<u8> {
        let over = self.random.range(1, 7) as usize;
        let length = match self.random.below(4) {
            0 => 0,
            1 => (INPUTS + over) * 8,
            2 => INPUTS * 8 + over,
            _ => self.random.range(0, 5) as usize * 8 + over,
        };
        self.random.bytes(length)
    }

    /// Fuel for any table; small enough that a loop for ever soon ends.
    pub fn fuel(&mut self) -> u32 {
        let fuel = match self.random.below(10) {
            0 => self.random.range(0, 3),
            1..=5 => self.random.range(4, 60),
            6 | 7 => self.random.range(200, 600),
            _ => self.random.range(256, 270),
        };
        fuel as u32
    }

    /// Fuel for this table: up to the largest where it has no while.
    pub fn fuel_for(&mut self, table: &[u8]) -> u32 {
        let has_while = records(table).iter().any(|record| record.kind == 46);
        match self.random.below(4) {
            0 if !has_while => self.random.pick(&[u32::MAX, u32::MAX - 1, 1 << 31]),
            _ => self.fuel(),
        }
    }

    /// An execution memory of the right length, full of old bytes.
    pub fn memory(&mut self) -> Vec<u8> {
        self.old_bytes(EXECUTION_BYTES)
    }

    /// An observation memory of the right length, full of old bytes.
    pub fn observation(&mut self) -> Vec<u8> {
        self.old_bytes(OBSERVATION_BYTES)
    }

    /// As a memory of this length may have been left, from anywhere among the old bytes.
    fn old_bytes(&mut self, length: usize) -> Vec<u8> {
        let start = self.random.index(self.old_bytes.len() - length);
        self.old_bytes[start..start + length].to_vec()
    }

    /// An output that 20 accepts for a translation of `count` records, often longer.
    pub fn output(&mut self, count: u32) -> Vec<u8> {
        let over = self.random.pick(&[0, 0, 1, 15, 16, 400]);
        self.random.bytes(count as usize * RECORD_BYTES + over)
    }

    /// A memory of another length than `right`: next to it, empty, anywhere near, or what it had with 255 names.
    pub fn wrong_length(&mut self, right: usize) -> Vec<u8> {
        let length = match self.random.below(5) {
            0 => right + 1,
            1 => right.saturating_sub(1),
            2 => 0,
            3 => right + self.random.range(2, 4000) as usize,
            _ => right - (NAMES - 255) * BLOCK_BYTES,
        };
        self.old_bytes(length)
    }

    /// An output too short for a translation of `count` records.
    pub fn short_output(&mut self, count: u32) -> Vec<u8> {
        let full = count as usize * RECORD_BYTES;
        let short = match self.random.below(3) {
            0 => full.saturating_sub(1),
            1 => full.saturating_sub(RECORD_BYTES),
            _ => self.random.index(full.max(1)),
        };
        self.random.bytes(short)
    }
}
