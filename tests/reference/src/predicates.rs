//! Terms and predicates of a source table, worked out on the execution memory.

use crate::machine::Machine;
use crate::value::Value;

pub fn term(machine: &Machine, number: u16) -> Result<Value, u32> {
    let record = machine.record(number);
    match record.kind {
        20 => machine.evaluate(record.a),
        24 => {
            let left = term(machine, record.a)?;
            let right = term(machine, record.b)?;
            machine.operate(record.kind, record.mark, left, right)
        }
        kind => {
            let pointer = term(machine, record.a)?.pointer()?;
            match kind {
                21 => machine.memory.base(pointer).map(Value::Pointer),
                22 => machine.memory.offset(pointer).map(Value::Integer),
                _ => machine.memory.length(pointer).map(Value::Integer),
            }
        }
    }
}

/// "'and' and 'or' skip B when A decides."
pub fn holds(machine: &Machine, number: u16) -> Result<bool, u32> {
    let record = machine.record(number);
    match record.kind {
        30 => Ok(machine.memory.valid(term(machine, record.a)?.pointer()?)),
        31 => Ok(machine
            .memory
            .initialised(term(machine, record.a)?.pointer()?)),
        32 => {
            let left = term(machine, record.a)?;
            let right = term(machine, record.b)?;
            machine
                .operate(record.kind, record.mark, left, right)?
                .truth()
        }
        33 => Ok(!holds(machine, record.a)?),
        34 => Ok(holds(machine, record.a)? && holds(machine, record.b)?),
        _ => Ok(holds(machine, record.a)? || holds(machine, record.b)?),
    }
}
