//! The plain run: a source table on an execution memory.

use crate::answer::{self, Answer};
use crate::checker::check;
use crate::grammar::Language;
use crate::limits::EXECUTION_BYTES;
use crate::machine::{inputs_from, Labels, Machine, Onlooker, Stop};
use crate::memory::Memory;
use crate::predicates::holds;
use crate::record::Record;
use crate::room::with_room;
use crate::statements::{run, Own};
use crate::value::{Compared, Pointer};

/// Statement 48, stopping at the first assertion that is false.
struct Asserting;

impl Own for Asserting {
    fn run_own(&mut self, machine: &mut Machine, number: u16) -> Result<(), Stop> {
        match holds(machine, machine.record(number).a) {
            Ok(true) => Ok(()),
            Ok(false) => Err(machine.stop(answer::ASSERTION_FALSE, number)),
            Err(fault) => Err(machine.stop(fault, number)),
        }
    }
}

/// Refusals 1–8, 9, 21 in this order; a refused run writes nothing.
pub fn run_plain(table: &[u8], inputs: &[u8], fuel: u32, memory: &mut [u8]) -> Answer {
    let (records, inputs) = match admit(table, inputs, Language::Source) {
        Ok(admitted) => admitted,
        Err(refusal) => return refusal,
    };
    if memory.len() != EXECUTION_BYTES {
        return Answer::of(answer::EXECUTION_LENGTH, 0);
    }
    let (answer, after) = run_accepted(&records, &inputs, fuel, &mut Asserting, None);
    memory.copy_from_slice(&after.image());
    answer
}

/// The pointer with which a plain run that ended 42 or 50 tried its last read or store.
pub fn used_pointer(table: &[u8], inputs: &[u8], fuel: u32) -> Option<Pointer> {
    let (records, inputs) = admit(table, inputs, Language::Source).ok()?;
    let (_, after) = run_accepted(&records, &inputs, fuel, &mut Asserting, None);
    after.astray()
}

/// The comparison that ended a plain run 47.
pub fn compared(table: &[u8], inputs: &[u8], fuel: u32) -> Option<Compared> {
    let (records, inputs) = admit(table, inputs, Language::Source).ok()?;
    let (_, after) = run_accepted(&records, &inputs, fuel, &mut Asserting, None);
    after.compared()
}

/// A plain run with an onlooker: its answer and memory, or its refusal by 1–9.
pub fn run_looked_on(
    table: &[u8],
    inputs: &[u8],
    fuel: u32,
    onlooker: Onlooker,
) -> Result<(Answer, Memory), Answer> {
    let (records, inputs) = admit(table, inputs, Language::Source)?;
    let own = &mut Asserting;
    Ok(run_accepted(&records, &inputs, fuel, own, Some(onlooker)))
}

/// The records and inputs of a run, or its refusal by 1–9.
pub fn admit(
    table: &[u8],
    inputs: &[u8],
    language: Language,
) -> Result<(Vec<Record>, Vec<i64>), Answer> {
    let records = check(table, language)?;
    let inputs = inputs_from(inputs)?;
    Ok((records, inputs))
}

/// Runs an accepted source table from its cleared start to its ending.
pub fn run_accepted<'run, O: Own + Send>(
    records: &'run [Record],
    inputs: &[i64],
    fuel: u32,
    own: &mut O,
    onlooker: Option<Onlooker<'run>>,
) -> (Answer, Memory) {
    // Inputs that passed 9 always fit the cleared memory.
    let memory = Memory::with_inputs(inputs).unwrap_or(Memory::cleared());
    let mut machine = Machine::new(records, Labels::RecordNumber, memory, fuel);
    machine.onlooker = onlooker;
    with_room(records, move || {
        let last = machine.last();
        let end = run(&mut machine, own, last);
        (machine.answer(end), machine.memory)
    })
}
