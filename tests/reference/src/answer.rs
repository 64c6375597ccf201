//! What every entry point returns, and the numbers it may carry.

/// `record` is the refused record, the source statement of an ending, or a translation's count.
#[derive(Debug, Clone, Copy, PartialEq, Eq)]
pub struct Answer {
    pub number: u32,
    pub record: u32,
    pub fuel: u32,
    pub free_cells: u32,
}

impl Answer {
    /// "The checker answers 0 with record 0 for an accepted table."
    pub const ACCEPTED: Answer = Answer::of(0, 0);

    /// An answer without a run behind it: its fuel and free cells are 0.
    pub const fn of(number: u32, record: u32) -> Answer {
        Answer::ending(number, record, 0, 0)
    }

    /// "Endings return number, source statement, fuel left, free cells."
    pub const fn ending(number: u32, record: u32, fuel: u32, free_cells: u32) -> Answer {
        Answer {
            number,
            record,
            fuel,
            free_cells,
        }
    }

    /// A read or store was tried with a pointer that leads to no cell: the ending is 42 or 50.
    pub const fn led_nowhere(self) -> bool {
        matches!(self.number, DEAD_BLOCK | OUTSIDE_BLOCK)
    }
}

pub const FINISHED: u32 = 0;

pub const LENGTH: u32 = 1;
pub const TOO_MANY_RECORDS: u32 = 2;
pub const KIND: u32 = 3;
pub const FIELD: u32 = 4;
pub const CHILD: u32 = 5;
pub const SHAPE: u32 = 6;
pub const SCOPE: u32 = 7;
pub const TOO_DEEP: u32 = 8;
pub const INPUTS: u32 = 9;
pub const SHORT_OUTPUT: u32 = 20;
pub const EXECUTION_LENGTH: u32 = 21;
pub const OBSERVATION_LENGTH: u32 = 22;

pub const NO_CELLS: u32 = 30;
pub const NO_NAMES: u32 = 31;
pub const NO_FUEL: u32 = 32;
pub const ASSERTION_FALSE: u32 = 33;

pub const WRONG_SORT: u32 = 40;
pub const UNDEFINED_READ: u32 = 41;
pub const DEAD_BLOCK: u32 = 42;
pub const OVERFLOW: u32 = 43;
pub const ZERO_DIVISOR: u32 = 44;
pub const SIZE_BELOW_ONE: u32 = 45;
pub const BAD_FREE: u32 = 46;
pub const NOT_LIVE: u32 = 47;
pub const CONTRADICTION: u32 = 48;
pub const EMPTY_TEMPORARY: u32 = 49;
pub const OUTSIDE_BLOCK: u32 = 50;

/// How a plain run may come out, and so the watched run of a translation.
pub const PLAIN_ENDINGS: [u32; 14] = [0, 30, 31, 32, 33, 40, 41, 42, 43, 44, 45, 46, 47, 50];
