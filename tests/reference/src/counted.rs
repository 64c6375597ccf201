//! Lets that count turns.

use crate::builder::Builder;

/// What a let that counts down has before its body.
#[derive(Debug, Clone, Copy)]
pub struct Count {
    variable: u8,
    start: u16,
    condition: u16,
}

impl Builder {
    /// A let that counts down begins: its variable takes the turns, and the condition is that 1 or more are left.
    pub fn start_count(&mut self, variable: u8, turns: i64) -> Count {
        let start = self.take_literal(variable, turns);
        let one = self.literal(1);
        let value = self.read_variable(variable);
        let condition = self.operator(6, one, value);
        Count {
            variable,
            start,
            condition,
        }
    }

    /// let i in (i = turns; while 1 at most i do (body; i = i - 1)).
    pub fn end_count(&mut self, count: Count, body: u16) -> u16 {
        let step = self.decrease(count.variable);
        let both = self.then(body, step);
        let turns = self.while_do(count.condition, both);
        let inside = self.then(count.start, turns);
        self.let_in(count.variable, inside)
    }

    /// A variable takes its own value less 1.
    pub fn decrease(&mut self, variable: u8) -> u16 {
        let place = self.variable(variable);
        let value = self.read_variable(variable);
        let one = self.literal(1);
        let less = self.operator(2, value, one);
        self.take(place, less)
    }
}
