//! Statements 40 to 47, which both runs share; the rest is each language's own.

use crate::answer::NO_FUEL;
use crate::machine::{Machine, Step, Stop};
use crate::memory::State;
use crate::record::Record;
use crate::value::Value;

/// The statements that only one of the two languages has.
pub trait Own {
    fn run_own(&mut self, machine: &mut Machine, number: u16) -> Result<(), Stop>;
}

/// Runs statement `number`; a stop names the innermost statement being run.
pub fn run<O: Own>(machine: &mut Machine, own: &mut O, number: u16) -> Result<(), Stop> {
    let end = run_untold(machine, own, number);
    machine.tell(Step::Ended {
        kind: machine.record(number).kind,
        stop: end.err().map(|stop| stop.number),
    });
    end
}

fn run_untold<O: Own>(machine: &mut Machine, own: &mut O, number: u16) -> Result<(), Stop> {
    let record = machine.record(number);
    match record.kind {
        40 => Ok(()),
        41..=43 => change(machine, record).map_err(|fault| machine.stop(fault, number)),
        44 => {
            run(machine, own, record.a)?;
            run(machine, own, record.b)
        }
        45 => {
            let holds = condition(machine, number)?;
            run(machine, own, if holds { record.b } else { record.c })
        }
        46 => run_while(machine, own, number),
        47 => run_let(machine, own, number),
        _ => own.run_own(machine, number),
    }
}

/// The condition of a 45 or 46, whose own number a stop in it names.
fn condition(machine: &Machine, number: u16) -> Result<bool, Stop> {
    let value = machine.evaluate(machine.record(number).a);
    value
        .and_then(Value::truth)
        .map_err(|fault| machine.stop(fault, number))
}

/// "One unit of fuel .. goes for each while test, before the condition is evaluated."
fn run_while<O: Own>(machine: &mut Machine, own: &mut O, number: u16) -> Result<(), Stop> {
    let body = machine.record(number).b;
    loop {
        let left = machine.fuel.checked_sub(1);
        machine.fuel = left.ok_or(machine.stop(NO_FUEL, number))?;
        if !condition(machine, number)? {
            return Ok(());
        }
        machine.tell(Step::Turn);
        run(machine, own, body)?;
    }
}

/// "Let makes one undefined cell, a fixed block, ending with its statement."
fn run_let<O: Own>(machine: &mut Machine, own: &mut O, number: u16) -> Result<(), Stop> {
    let record = machine.record(number);
    let made = machine.memory.new_block(State::Fixed, 1);
    let block = made.map_err(|fault| machine.stop(fault, number))?;
    machine.tell(Step::LetEntered);
    machine.variables[usize::from(record.mark)] = block.name;
    run(machine, own, record.a)?;
    machine.memory.end_block(block.name);
    machine.variables[usize::from(record.mark)] = 0;
    Ok(())
}

/// 41, 42 and 43. "Statement 42 makes the block first and then stores the pointer."
fn change(machine: &mut Machine, record: Record) -> Result<(), u32> {
    if record.kind == 43 {
        let pointer = machine.evaluate(record.a)?.pointer()?;
        return machine.memory.free(pointer);
    }
    let place = machine.place(record.a)?;
    let value = machine.evaluate(record.b)?;
    let taken = if record.kind == 41 {
        value
    } else {
        Value::Pointer(
            machine
                .memory
                .new_block(State::Freeable, value.integer()?)?,
        )
    };
    machine.memory.store(place, taken)
}
