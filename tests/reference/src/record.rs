//! The fields of a record, from its 16 little-endian bytes and back.

use crate::limits::RECORD_BYTES;

#[derive(Debug, Clone, Copy, PartialEq, Eq, Default)]
pub struct Record {
    pub kind: u8,
    pub mark: u8,
    pub a: u16,
    pub b: u16,
    pub c: u16,
    pub literal: i64,
}

impl Record {
    pub fn from_bytes(bytes: [u8; RECORD_BYTES]) -> Record {
        let pair = |at: usize| u16::from_le_bytes([bytes[at], bytes[at + 1]]);
        let mut literal = [0; 8];
        literal.copy_from_slice(&bytes[8..]);
        Record {
            kind: bytes[0],
            mark: bytes[1],
            a: pair(2),
            b: pair(4),
            c: pair(6),
            literal: i64::from_le_bytes(literal),
        }
    }

    pub fn bytes(&self) -> [u8; RECORD_BYTES] {
        let mut bytes = [0; RECORD_BYTES];
        bytes[0] = self.kind;
        bytes[1] = self.mark;
        bytes[2..4].copy_from_slice(&self.a.to_le_bytes());
        bytes[4..6].copy_from_slice(&self.b.to_le_bytes());
        bytes[6..8].copy_from_slice(&self.c.to_le_bytes());
        bytes[8..].copy_from_slice(&self.literal.to_le_bytes());
        bytes
    }

    /// Fields A, B, C in order, whether or not they hold children.
    pub fn fields(&self) -> [u16; 3] {
        [self.a, self.b, self.c]
    }
}

/// Record `number`, counted from 1; none where the table does not reach so far.
pub fn record(table: &[u8], number: usize) -> Option<Record> {
    let start = number.checked_sub(1)?.checked_mul(RECORD_BYTES)?;
    let bytes = table.get(start..start.checked_add(RECORD_BYTES)?)?;
    Some(Record::from_bytes(bytes.try_into().ok()?))
}

/// All whole records of a table; record n stands at n - 1.
pub fn records(table: &[u8]) -> Vec<Record> {
    (1..=table.len() / RECORD_BYTES)
        .filter_map(|number| record(table, number))
        .collect()
}

/// The bytes of a table made of these records.
pub fn table(records: &[Record]) -> Vec<u8> {
    records.iter().flat_map(Record::bytes).collect()
}
