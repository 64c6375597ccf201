//! The watched run: a target table on both memories, with its temporaries.

use crate::answer::{self, Answer};
use crate::grammar::Language;
use crate::limits::{EXECUTION_BYTES, OBSERVATION_BYTES};
use crate::machine::{Labels, Machine, Onlooker, Stop};
use crate::memory::Memory;
use crate::observation::Observation;
use crate::plain::admit;
use crate::record::Record;
use crate::room::with_room;
use crate::statements::{run, Own};
use crate::value::{operate, Compared, Pointer, Value};

/// Statements 60 to 70.
struct Watching {
    observation: Observation,
}

impl Own for Watching {
    fn run_own(&mut self, machine: &mut Machine, number: u16) -> Result<(), Stop> {
        let record = machine.record(number);
        let step = self.step(machine, record);
        match step.map_err(|fault| machine.stop(fault, number))? {
            Some(branch) => run(machine, self, branch),
            None => Ok(()),
        }
    }
}

impl Watching {
    /// One statement of the target's own; a 66 gives the branch to go on with.
    fn step(&mut self, machine: &mut Machine, record: Record) -> Result<Option<u16>, u32> {
        let mark = record.mark;
        match record.kind {
            60..=65 => {
                let value = self.computed(machine, record)?;
                machine.temporaries[usize::from(mark)] = Some(value);
            }
            66 => {
                let holds = machine.temporary(mark)?.truth()?;
                return Ok(Some(if holds { record.b } else { record.c }));
            }
            67 => {
                let holds = machine.temporary(mark)?.truth()?;
                return if holds {
                    Ok(None)
                } else {
                    Err(answer::ASSERTION_FALSE)
                };
            }
            _ => self.call(machine, record)?,
        }
        Ok(None)
    }

    /// What tn takes in 60, 61, 63, 64 and 65.
    fn computed(&self, machine: &Machine, record: Record) -> Result<Value, u32> {
        let next = record.mark.saturating_add(1);
        match record.kind {
            60 => machine.place(record.a).map(Value::Pointer),
            61 => machine.evaluate(record.a),
            63 => {
                let left = machine.temporary(next)?;
                let right = machine.temporary(next.saturating_add(1))?;
                // "kind 63 asks the observation memory", whatever the execution memory holds.
                let is_live = |pointer| self.observation.is_live(pointer);
                let result = operate(record.c as u8, left, right, is_live);
                machine.keep_compared(record.kind, left, right, result)
            }
            64 => self.query(record.c, machine.temporary(next)?.pointer()?),
            _ => Ok(Value::of_truth(!machine.temporary(next)?.truth()?)),
        }
    }

    fn query(&self, query: u16, pointer: Pointer) -> Result<Value, u32> {
        match query {
            1 => Ok(Value::of_truth(self.observation.valid(pointer))),
            2 => Ok(Value::of_truth(self.observation.initialised(pointer))),
            3 => self.observation.base(pointer).map(Value::Pointer),
            4 => self.observation.offset(pointer).map(Value::Integer),
            _ => self.observation.length(pointer).map(Value::Integer),
        }
    }

    /// 68, 69 and 70.
    fn call(&mut self, machine: &Machine, record: Record) -> Result<(), u32> {
        let first = machine.temporary(record.mark)?;
        if record.kind == 68 {
            // 49 for either temporary comes before 40 for either.
            let second = machine.temporary(record.mark.saturating_add(1))?;
            return self
                .observation
                .store_block(first.pointer()?, second.integer()?);
        }
        match record.kind {
            69 => self.observation.delete_block(first.pointer()?),
            _ => self.observation.initialise(first.pointer()?),
        }
    }
}

/// Refusals 1–7, 9, 21, 22 in this order; a refused run writes nothing.
pub fn run_watched(
    table: &[u8],
    inputs: &[u8],
    fuel: u32,
    memory: &mut [u8],
    observation: &mut [u8],
) -> Answer {
    let (records, inputs) = match admit(table, inputs, Language::Target) {
        Ok(admitted) => admitted,
        Err(refusal) => return refusal,
    };
    if memory.len() != EXECUTION_BYTES {
        return Answer::of(answer::EXECUTION_LENGTH, 0);
    }
    if observation.len() != OBSERVATION_BYTES {
        return Answer::of(answer::OBSERVATION_LENGTH, 0);
    }
    let (answer, after, observed) = watch_accepted(&records, &inputs, fuel, None);
    memory.copy_from_slice(&after.image());
    observation.copy_from_slice(&observed.image());
    answer
}

/// The pointer with which a watched run that ended 42 or 50 tried its last read or store.
pub fn used_pointer(table: &[u8], inputs: &[u8], fuel: u32) -> Option<Pointer> {
    let (records, inputs) = admit(table, inputs, Language::Target).ok()?;
    let (_, after, _) = watch_accepted(&records, &inputs, fuel, None);
    after.astray()
}

/// The comparison that ended a watched run 47.
pub fn compared(table: &[u8], inputs: &[u8], fuel: u32) -> Option<Compared> {
    let (records, inputs) = admit(table, inputs, Language::Target).ok()?;
    let (_, after, _) = watch_accepted(&records, &inputs, fuel, None);
    after.compared()
}

/// A watched run with an onlooker: its answer and execution memory, or its refusal by 1–9.
pub fn run_looked_on(
    table: &[u8],
    inputs: &[u8],
    fuel: u32,
    onlooker: Onlooker,
) -> Result<(Answer, Memory), Answer> {
    let (records, inputs) = admit(table, inputs, Language::Target)?;
    let (answer, memory, _) = watch_accepted(&records, &inputs, fuel, Some(onlooker));
    Ok((answer, memory))
}

/// Runs an accepted target table from its cleared start to its ending.
pub fn watch_accepted<'run>(
    records: &'run [Record],
    inputs: &[i64],
    fuel: u32,
    onlooker: Option<Onlooker<'run>>,
) -> (Answer, Memory, Observation) {
    // Inputs that passed 9 always fit the cleared memories.
    let memory = Memory::with_inputs(inputs).unwrap_or(Memory::cleared());
    let observation = observe_inputs(inputs.len()).unwrap_or(Observation::cleared());
    let mut machine = Machine::new(records, Labels::Literal, memory, fuel);
    machine.onlooker = onlooker;
    let mut watching = Watching { observation };
    with_room(records, move || {
        let last = machine.last();
        let end = run(&mut machine, &mut watching, last);
        (machine.answer(end), machine.memory, watching.observation)
    })
}

/// "The watched run starts with both input blocks recorded there and all their cells marked."
fn observe_inputs(count: usize) -> Result<Observation, u32> {
    let mut observation = Observation::cleared();
    for (name, length) in [(1, 1), (2, count as i64)] {
        observation.store_block(Pointer { name, offset: 0 }, length)?;
        for offset in 0..length {
            observation.initialise(Pointer { name, offset })?;
        }
    }
    Ok(observation)
}
