//! Programs that give many names first, so that what follows works on high ones or finds them all given.

use super::astray::ASTRAY;
use super::comparing::COMPARING;
use super::grow::{Grower, Holds};
use super::random::Random;
use super::Generator;
use crate::limits::NAMES;
use crate::naming::{block_in_lets, nested_lets, recorded_lets, Turn};

/// Of a thousand source and target programs; without these no seeded one of the others would end 31.
const NEARLY_ALL: [u64; 2] = [15, 3];

/// With so many names between the two lets they have names whose low bytes are equal, and so have their blocks.
const TWINS: usize = 254;

/// Names of the inputs, and of the let and the block that come before the many.
const BEFORE: usize = 4;

/// The names that an ordinary program gives first: none, or all but a few.
pub fn of_ordinary(in_target: bool, random: &mut Random) -> usize {
    if random.below(1_000) < NEARLY_ALL[usize::from(in_target)] {
        all_but_a_few(random)
    } else {
        0
    }
}

fn all_but_a_few(random: &mut Random) -> usize {
    NAMES - BEFORE - random.index(6)
}

/// Mostly so many that the next name has two bytes; so few runs give nearly all that the others can be many.
fn of_many(random: &mut Random) -> usize {
    let among = |random: &mut Random, low, high| random.range(low, high) as usize;
    match random.below(200) {
        0..=99 => TWINS,
        100..=159 => among(random, 240, 270),
        160..=179 => TWINS + 256 * among(random, 1, 2),
        180 | 181 => all_but_a_few(random),
        _ => among(random, 1, 40),
    }
}

impl Grower<'_> {
    /// let v in (v takes a block; names are given and ended; let w in (w takes a block; a program)).
    pub fn program_after_names(&mut self) -> u16 {
        self.in_let_with_block(|grower| {
            let given = grower.give_names();
            grower.limit += grower.builder.len();
            let rest = grower.in_let_with_block(Self::program_proper);
            grower.builder.then(given, rest)
        })
    }

    fn in_let_with_block(&mut self, rest: fn(&mut Self) -> u16) -> u16 {
        // No statement is labelled before these.
        self.relabel();
        let fresh = self.fresh_variables();
        let variable = self.random.pick(&fresh);
        self.scope.push((variable, Holds::Nothing));
        let block = self.block_in(variable);
        let rest = rest(self);
        self.scope.pop();
        self.relabel();
        let inside = self.builder.then(block, rest);
        self.builder.let_in(variable, inside)
    }

    /// The variable takes a block, in a target mostly a recorded one, and mostly something is stored through it.
    fn block_in(&mut self, variable: u8) -> u16 {
        let length = self.random.range(1, 4);
        let mut parts = vec![self.builder.new_in(variable, length)];
        if self.in_target && self.random.chance(70) {
            parts.push(self.record_pointed(variable, length));
        }
        let filled = self.random.chance(70);
        if filled {
            let pointer = self.builder.read_variable(variable);
            let place = self.builder.pointed(pointer);
            let value = self.any_expression(0);
            parts.push(self.builder.take(place, value));
        }
        self.set_holds(variable, Holds::Block { length, filled });
        self.builder.sequence(&parts)
    }

    /// In few turns where the names are many, so that most amounts of fuel suffice.
    fn give_names(&mut self) -> u16 {
        let lets = match self.names {
            1000.. => 31,
            _ => self.random.pick(&[5, 16, 16, 31]),
        };
        let turns: [Turn; 3] = [nested_lets, block_in_lets, recorded_lets];
        let turn = turns[self.random.index(if self.in_target { 3 } else { 2 })];
        let fresh = self.fresh_variables();
        self.builder
            .give_names_by(turn, self.names, &fresh[..1 + lets])
    }
}

impl Generator {
    pub fn many_names_source(&mut self) -> Vec<u8> {
        self.source_grown(set)
    }

    pub fn many_names_target(&mut self) -> Vec<u8> {
        self.target_grown(set)
    }

    /// A source that goes on with the last few names.
    pub fn last_names_source(&mut self) -> Vec<u8> {
        self.source_grown(|grower| grower.names = all_but_a_few(grower.random))
    }

    pub fn last_names_target(&mut self) -> Vec<u8> {
        self.target_grown(|grower| grower.names = all_but_a_few(grower.random))
    }
}

/// Every other one goes astray or compares pointers too.
fn set(grower: &mut Grower) {
    grower.names = of_many(grower.random);
    match grower.random.below(4) {
        0 => grower.astray = ASTRAY,
        1 => grower.comparing = COMPARING,
        _ => {}
    }
}
