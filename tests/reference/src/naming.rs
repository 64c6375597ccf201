//! Many names given and ended again, for tables whose further blocks get high ones.

use crate::builder::Builder;
use crate::limits::VARIABLES;

/// A statement that gives, and ends, as many names as there are variables; each is let for it alone.
pub type Turn = fn(&mut Builder, &[u8]) -> u16;

/// The upper half of the variables, which other parts of a table then leave alone.
const UPPER: u8 = VARIABLES as u8 / 2;

impl Builder {
    /// This many names, at least 1, given and ended again.
    pub fn give_names(&mut self, names: usize) -> u16 {
        let variables: Vec<u8> = (UPPER..VARIABLES as u8).collect();
        self.give_names_by(nested_lets, names, &variables)
    }

    /// The same in these turns. The first variable counts them, and a last turn gives what is left over.
    pub fn give_names_by(&mut self, turn: Turn, names: usize, variables: &[u8]) -> u16 {
        let (counter, others) = (variables[0], &variables[1..]);
        let (turns, left) = ((names - 1) / others.len(), (names - 1) % others.len());
        let count = self.start_count(counter, turns as i64);
        let body = turn(self, others);
        let counted = self.end_count(count, body);
        let last = turn(self, &others[..left]);
        self.then(counted, last)
    }

    /// A target's note of a let that has just begun: t0 takes its address, t1 the length, and the block is stored.
    pub fn record_let(&mut self, variable: u8, length: i64) -> u16 {
        let place = self.variable(variable);
        let saved = self.add(60, 0, [place, 0, 0]);
        let length = self.literal(length);
        let sized = self.add(61, 1, [length, 0, 0]);
        let stored = self.add(68, 0, [0; 3]);
        self.sequence(&[saved, sized, stored])
    }
}

/// Lets of skip, one within another.
pub fn nested_lets(b: &mut Builder, variables: &[u8]) -> u16 {
    let skip = b.skip();
    variables
        .iter()
        .fold(skip, |body, &variable| b.let_in(variable, body))
}

/// Lets around a block that the innermost variable takes and frees.
pub fn block_in_lets(b: &mut Builder, variables: &[u8]) -> u16 {
    if variables.len() < 2 {
        return nested_lets(b, variables);
    }
    let new = b.new_in(variables[1], 1);
    let free = b.free_variable(variables[1]);
    let inside = b.then(new, free);
    variables[1..]
        .iter()
        .fold(inside, |body, &variable| b.let_in(variable, body))
}

/// Lets of a target whose blocks are recorded and deleted, as a translation's are.
pub fn recorded_lets(b: &mut Builder, variables: &[u8]) -> u16 {
    let skip = b.skip();
    variables.iter().fold(skip, |body, &variable| {
        let recorded = b.record_let(variable, 1);
        let place = b.variable(variable);
        let saved = b.add(60, 0, [place, 0, 0]);
        let deleted = b.add(69, 0, [0; 3]);
        let inside = b.sequence(&[recorded, body, saved, deleted]);
        b.let_in(variable, inside)
    })
}
