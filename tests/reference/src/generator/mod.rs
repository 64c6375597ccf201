//! Seeded tables, inputs and buffers for comparing one implementation with another.

mod astray;
mod comparing;
pub mod damage;
mod divisions;
mod grow;
mod lend;
mod many_names;
pub mod order;
mod placing;
mod predicates;
pub mod random;
mod statements;
mod targets;

use crate::answer::Answer;
use crate::checker::{check_source, check_target};
use crate::grammar::Language;
use crate::limits::{EXECUTION_BYTES, OBSERVATION_BYTES, SOURCE_RECORDS, TARGET_RECORDS};
use crate::record::{records, table, Record};
use crate::translator::translation;
use damage::{damaged, perturbed};
use grow::Grower;
use random::Random;

/// Everything one entry point may be given; a source case leaves the observation unused.
#[derive(Debug, Clone, PartialEq, Eq)]
pub struct Case {
    pub table: Vec<u8>,
    pub inputs: Vec<u8>,
    pub fuel: u32,
    pub memory: Vec<u8>,
    pub observation: Vec<u8>,
}

/// Equal seeds give equal cases.
#[derive(Debug, Clone)]
pub struct Generator {
    pub random: Random,
    /// What lent memories are cut from; drawing their bytes anew would take longer than most plain runs.
    old_bytes: Vec<u8>,
}

impl Generator {
    pub fn new(seed: u64) -> Generator {
        let mut random = Random::new(seed);
        let old_bytes = random.bytes(2 * EXECUTION_BYTES);
        Generator { random, old_bytes }
    }

    /// An accepted source table, half of them child-first and half in another valid order.
    pub fn accepted_source(&mut self) -> Vec<u8> {
        let grown = self.child_first_source();
        if self.random.chance(50) {
            grown
        } else {
            table(&order::shuffled(&records(&grown), &mut self.random))
        }
    }

    pub fn child_first_source(&mut self) -> Vec<u8> {
        self.until_accepted(check_source, |generator| {
            let mut grown = generator.grown(false, |_| {});
            if generator.random.chance(4) {
                let size = SOURCE_RECORDS - generator.random.index(3);
                pad(&mut grown, size);
            }
            grown
        })
    }

    pub fn shuffled_source(&mut self) -> Vec<u8> {
        let grown = self.child_first_source();
        table(&order::shuffled(&records(&grown), &mut self.random))
    }

    /// An accepted target table: hand-made, a translation, or a translation a little changed.
    pub fn target(&mut self) -> Vec<u8> {
        match self.random.below(10) {
            0..=5 => self.hand_made_target(),
            6 | 7 => self.translated_target(),
            _ => self.changed_target(),
        }
    }

    pub fn hand_made_target(&mut self) -> Vec<u8> {
        self.until_accepted(check_target, |generator| {
            let mut grown = generator.grown(true, |_| {});
            if generator.random.chance(1) {
                let size = TARGET_RECORDS - generator.random.index(3);
                pad(&mut grown, size);
            }
            if generator.random.chance(30) {
                grown = order::shuffled(&grown, &mut generator.random);
            }
            grown
        })
    }

    pub fn translated_target(&mut self) -> Vec<u8> {
        let source = self.accepted_source();
        translation(&source).map_or(Vec::new(), |translation| table(&translation.records))
    }

    /// A translation with a few fields changed, still accepted.
    pub fn changed_target(&mut self) -> Vec<u8> {
        self.until_accepted(check_target, |generator| {
            let mut list = records(&generator.translated_target());
            perturbed(&mut list, &mut generator.random);
            list
        })
    }

    /// Makes tables until the check accepts one.
    fn until_accepted(
        &mut self,
        check: fn(&[u8]) -> Answer,
        mut make: impl FnMut(&mut Generator) -> Vec<Record>,
    ) -> Vec<u8> {
        loop {
            let made = table(&make(self));
            if check(&made).number == 0 {
                return made;
            }
        }
    }

    /// A source table with damage, nearly always refused, by any of 1–8.
    pub fn damaged_source(&mut self) -> Vec<u8> {
        if self.random.chance(12) {
            return self.deep_source();
        }
        let source = self.accepted_source();
        damaged(&source, Language::Source, &mut self.random)
    }

    /// A target table with damage, nearly always refused, by any of 1–7.
    pub fn damaged_target(&mut self) -> Vec<u8> {
        let target = self.target();
        damaged(&target, Language::Target, &mut self.random)
    }

    /// A source table with one deep assertion; 8 refuses most of them.
    pub fn deep_source(&mut self) -> Vec<u8> {
        let mut grower = Grower::new(&mut self.random, false);
        let levels = grower.random.range(58, 110) as u64;
        let predicate = grower.deep_predicate(levels);
        grower.builder.assert(predicate);
        let list = grower.builder.records().to_vec();
        if self.random.chance(50) {
            return table(&list);
        }
        table(&order::shuffled(&list, &mut self.random))
    }

    /// A case for checker, translator or plain run; one in six is refused for some reason.
    pub fn source_case(&mut self) -> Case {
        let damaged = self.random.chance(8);
        let table = if damaged {
            self.damaged_source()
        } else {
            self.accepted_source()
        };
        self.case(table)
    }

    /// A case for checker or watched run; one in six is refused for some reason.
    pub fn target_case(&mut self) -> Case {
        let damaged = self.random.chance(8);
        let table = if damaged {
            self.damaged_target()
        } else {
            self.target()
        };
        self.case(table)
    }

    fn case(&mut self, table: Vec<u8>) -> Case {
        let [bad_inputs, bad_memory, bad_observation] = [3, 3, 3].map(|p| self.random.chance(p));
        Case {
            inputs: if bad_inputs {
                self.bad_inputs()
            } else {
                self.inputs()
            },
            fuel: self.fuel_for(&table),
            memory: match bad_memory {
                true => self.wrong_length(EXECUTION_BYTES),
                false => self.memory(),
            },
            observation: match bad_observation {
                true => self.wrong_length(OBSERVATION_BYTES),
                false => self.observation(),
            },
            table,
        }
    }

    /// An accepted source table, half of them child-first and half in another valid order.
    fn source_grown(&mut self, set: fn(&mut Grower)) -> Vec<u8> {
        self.until_accepted(check_source, |generator| {
            let grown = generator.grown(false, set);
            if generator.random.chance(50) {
                order::shuffled(&grown, &mut generator.random)
            } else {
                grown
            }
        })
    }

    /// An accepted target table that is no translation.
    fn target_grown(&mut self, set: fn(&mut Grower)) -> Vec<u8> {
        self.until_accepted(check_target, |generator| generator.grown(true, set))
    }

    /// The records of a program as it grew, in child-first order; `set` tells what it does more often than others.
    fn grown(&mut self, in_target: bool, set: fn(&mut Grower)) -> Vec<Record> {
        let mut grower = Grower::new(&mut self.random, in_target);
        set(&mut grower);
        grower.program();
        grower.builder.records().to_vec()
    }
}

/// Lengthens a program towards `size` records by a skip and a 44 at a time, so never past it.
fn pad(list: &mut Vec<Record>, size: usize) {
    let literal = list.last().map_or(0, |last| last.literal);
    while list.len() + 2 <= size {
        let root = list.len() as u16;
        list.push(Record {
            kind: 40,
            literal,
            ..Record::default()
        });
        list.push(Record {
            kind: 44,
            a: root,
            b: root + 1,
            literal,
            ..Record::default()
        });
    }
}
