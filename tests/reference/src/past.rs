//! The run of "Demand 3 in full": a 48 works its predicate out and "goes on even at 0".

use crate::answer::{Answer, ASSERTION_FALSE};
use crate::grammar::Language;
use crate::machine::{Machine, Stop};
use crate::memory::Memory;
use crate::plain::{admit, run_accepted};
use crate::predicates::holds;
use crate::statements::Own;

#[derive(Debug, Clone, Copy, PartialEq, Eq)]
pub enum Truth {
    True,
    False,
    /// Working the predicate out ended the run, which is "not false".
    Ended,
}

/// One arrival at a 48.
#[derive(Debug, Clone, Copy, PartialEq, Eq)]
pub struct Reached {
    pub statement: u32,
    pub truth: Truth,
    pub fuel: u32,
}

#[derive(Debug, Clone)]
pub struct Past {
    /// Every assertion reached, in the order of arrival.
    pub reached: Vec<Reached>,
    pub ending: Answer,
    pub memory: Memory,
    /// The ending 33 that the first false assertion asks for, with the memory as then.
    pub first_false: Option<(Answer, Memory)>,
}

impl Past {
    /// "Both runs end 33 at the first that is false, .. with none, both end as this run does."
    pub fn predicted(&self) -> (Answer, &Memory) {
        match &self.first_false {
            Some((answer, memory)) => (*answer, memory),
            None => (self.ending, &self.memory),
        }
    }
}

#[derive(Default)]
struct GoingOn {
    reached: Vec<Reached>,
    first_false: Option<(Answer, Memory)>,
}

impl Own for GoingOn {
    fn run_own(&mut self, machine: &mut Machine, number: u16) -> Result<(), Stop> {
        let outcome = holds(machine, machine.record(number).a);
        let truth = match outcome {
            Ok(true) => Truth::True,
            Ok(false) => Truth::False,
            Err(_) => Truth::Ended,
        };
        let statement = machine.statement(number);
        self.reached.push(Reached {
            statement,
            truth,
            fuel: machine.fuel,
        });
        if truth == Truth::False && self.first_false.is_none() {
            let answer = machine.answer(Err(machine.stop(ASSERTION_FALSE, number)));
            self.first_false = Some((answer, machine.memory.clone()));
        }
        outcome
            .map(|_| ())
            .map_err(|fault| machine.stop(fault, number))
    }
}

/// The run past false assertions, or its refusal by 1–9.
pub fn past(table: &[u8], inputs: &[u8], fuel: u32) -> Result<Past, Answer> {
    let (records, inputs) = admit(table, inputs, Language::Source)?;
    let mut own = GoingOn::default();
    let (ending, memory) = run_accepted(&records, &inputs, fuel, &mut own, None);
    Ok(Past {
        reached: own.reached,
        ending,
        memory,
        first_false: own.first_false,
    })
}
