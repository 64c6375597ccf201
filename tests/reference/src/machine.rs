//! The state of a run, and the evaluation of expressions and places in it.

use crate::answer::{self, Answer, EMPTY_TEMPORARY, NOT_LIVE};
use crate::limits::{INPUTS, INPUT_BYTES, TEMPORARIES, VARIABLES};
use crate::memory::Memory;
use crate::record::Record;
use crate::value::{operate, Compared, Pointer, Value};

/// Where a run stopped before its end: the ending's number and its source statement.
#[derive(Debug, Clone, Copy, PartialEq, Eq)]
pub struct Stop {
    pub number: u32,
    pub statement: u32,
}

/// How a record tells the source statement it belongs to.
#[derive(Debug, Clone, Copy, PartialEq, Eq)]
pub enum Labels {
    RecordNumber,
    Literal,
}

/// What a run has just done. A stop ends the statement it is found in, then every one around that.
#[derive(Debug, Clone, Copy, PartialEq, Eq)]
pub enum Step {
    LetEntered,
    /// A while test that held; the body comes next.
    Turn,
    Ended {
        kind: u8,
        stop: Option<u32>,
    },
}

/// Told of each step, with the memory as it is then.
pub type Onlooker<'run> = &'run mut (dyn FnMut(Step, &Memory) + Send);

pub struct Machine<'table> {
    records: &'table [Record],
    labels: Labels,
    pub onlooker: Option<Onlooker<'table>>,
    pub memory: Memory,
    pub variables: [u32; VARIABLES],
    pub temporaries: [Option<Value>; TEMPORARIES],
    pub fuel: u32,
}

impl<'table> Machine<'table> {
    /// The cleared start: variable 0 is block 1, every temporary is empty.
    pub fn new(records: &'table [Record], labels: Labels, memory: Memory, fuel: u32) -> Self {
        let mut variables = [0; VARIABLES];
        variables[0] = 1;
        let temporaries = [None; TEMPORARIES];
        Machine {
            records,
            labels,
            onlooker: None,
            memory,
            variables,
            temporaries,
            fuel,
        }
    }

    pub fn tell(&mut self, step: Step) {
        if let Some(onlooker) = &mut self.onlooker {
            onlooker(step, &self.memory);
        }
    }

    pub fn last(&self) -> u16 {
        self.records.len() as u16
    }

    pub fn record(&self, number: u16) -> Record {
        let index = usize::from(number).wrapping_sub(1);
        self.records.get(index).copied().unwrap_or_default()
    }

    /// The source statement that record `number` is or came from.
    pub fn statement(&self, number: u16) -> u32 {
        match self.labels {
            Labels::RecordNumber => u32::from(number),
            Labels::Literal => self.record(number).literal as u32,
        }
    }

    pub fn stop(&self, number: u32, record: u16) -> Stop {
        Stop {
            number,
            statement: self.statement(record),
        }
    }

    pub fn answer(&self, end: Result<(), Stop>) -> Answer {
        let (number, record) = match end {
            Ok(()) => (answer::FINISHED, 0),
            Err(stop) => (stop.number, stop.statement),
        };
        Answer {
            number,
            record,
            fuel: self.fuel,
            free_cells: self.memory.free_cells(),
        }
    }

    /// "Evaluation goes A, then B, then the operation."
    pub fn evaluate(&self, number: u16) -> Result<Value, u32> {
        let record = self.record(number);
        match record.kind {
            1 => Ok(Value::Integer(record.literal)),
            2 => self.memory.read(self.place(record.a)?),
            3 => Ok(Value::Pointer(self.place(record.a)?)),
            kind => {
                let left = self.evaluate(record.a)?;
                let right = self.evaluate(record.b)?;
                let operator = if kind == 4 { record.mark } else { 8 };
                self.operate(kind, operator, left, right)
            }
        }
    }

    /// An operation of an expression, term or predicate: "an expression, there too, asks the execution memory".
    pub fn operate(&self, kind: u8, operator: u8, left: Value, right: Value) -> Result<Value, u32> {
        let is_live = |pointer| self.memory.is_live(pointer);
        let result = operate(operator, left, right, is_live);
        self.keep_compared(kind, left, right, result)
    }

    /// The result of an operation; the pointers of a comparison that ended 47 are kept.
    pub fn keep_compared(
        &self,
        kind: u8,
        left: Value,
        right: Value,
        result: Result<Value, u32>,
    ) -> Result<Value, u32> {
        if let (Err(NOT_LIVE), Value::Pointer(left), Value::Pointer(right)) = (result, left, right)
        {
            self.memory.keep_compared(Compared { kind, left, right });
        }
        result
    }

    /// Places 11 and 12 take a pointer "as soon as the place is worked out".
    pub fn place(&self, number: u16) -> Result<Pointer, u32> {
        let record = self.record(number);
        match record.kind {
            10 => Ok(Pointer {
                name: self.variables[usize::from(record.mark)],
                offset: 0,
            }),
            11 => self.evaluate(record.a)?.pointer(),
            _ => self.temporary(record.mark)?.pointer(),
        }
    }

    pub fn temporary(&self, number: u8) -> Result<Value, u32> {
        let temporary = self.temporaries.get(usize::from(number)).copied().flatten();
        temporary.ok_or(EMPTY_TEMPORARY)
    }
}

/// The inputs, or 9: "no multiple of 8 bytes, none, or over 256".
pub fn inputs_from(bytes: &[u8]) -> Result<Vec<i64>, Answer> {
    let count = bytes.len() / INPUT_BYTES;
    if !bytes.len().is_multiple_of(INPUT_BYTES) || count == 0 || count > INPUTS {
        return Err(Answer::of(answer::INPUTS, 0));
    }
    let input = |bytes: &[u8]| {
        bytes
            .iter()
            .rev()
            .fold(0_u64, |sum, &b| sum << 8 | u64::from(b))
    };
    Ok(bytes
        .chunks(INPUT_BYTES)
        .map(|bytes| input(bytes) as i64)
        .collect())
}
