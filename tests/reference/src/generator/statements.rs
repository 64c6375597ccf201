//! Growing the statements that both languages have, and whole programs.

use super::grow::{Grower, Holds};
use crate::limits::VARIABLES;

impl Grower<'_> {
    /// A few statements one after another.
    pub fn statements(&mut self, depth: u32) -> u16 {
        let count = self.random.range(1, 4);
        let parts: Vec<u16> = (0..count).map(|_| self.statement(depth)).collect();
        self.relabel();
        self.builder.sequence(&parts)
    }

    /// Each target statement names a source statement; any from 1 to 256 will do.
    pub fn relabel(&mut self) {
        if self.in_target {
            self.builder.label = self.random.range(1, 256);
        }
    }

    pub fn statement(&mut self, depth: u32) -> u16 {
        self.relabel();
        if self.full() {
            return self.builder.skip();
        }
        if self.in_target && self.random.chance(60) {
            return self.own_statement(depth);
        }
        let choice = self.random.below(if depth == 0 { 12 } else { 20 });
        let statement = match choice {
            0 => self.builder.skip(),
            1 | 2 => self.take_integer(),
            3 => self.take_pointer(),
            4 | 5 => self.store_through(),
            6 | 7 => self.take_new(),
            8 => self.free(),
            9..=11 => self.assertion(),
            12 | 13 => self.choice(depth),
            14 => self.loop_for_ever(depth),
            15 => self.counted_loop(depth),
            16..=18 => self.let_block(depth),
            _ => self.statements(depth - 1),
        };
        self.relabel();
        statement
    }

    fn take_integer(&mut self) -> u16 {
        let some = self.variable_that(|holds| matches!(holds, Holds::Nothing | Holds::Integer));
        let Some(variable) = some else {
            return self.builder.skip();
        };
        let place = self.builder.variable(variable);
        let expression = self.integer(3);
        self.set_holds(variable, Holds::Integer);
        self.builder.take(place, expression)
    }

    fn take_pointer(&mut self) -> u16 {
        let variable = self
            .variable_that(|holds| holds != Holds::Count)
            .unwrap_or(0);
        let place = self.builder.variable(variable);
        let aim = self.variable_that(|_| true).unwrap_or(0);
        let (expression, holds) = match self.variable_that(Holds::is_live_pointer) {
            Some(other) if self.random.chance(60) => {
                (self.builder.read_variable(other), self.holds(other))
            }
            _ => (self.builder.address_of_variable(aim), Holds::Variable(aim)),
        };
        self.set_holds(variable, holds);
        self.builder.take(place, expression)
    }

    /// Store to what a pointer points to.
    fn store_through(&mut self) -> u16 {
        if self.random.chance(self.wild) {
            let place = self.any_place(2);
            let expression = self.any_expression(2);
            return self.builder.take(place, expression);
        }
        let some = self.variable_that(|holds| holds.is_block() || holds == Holds::Inputs);
        let variable = some.unwrap_or(0);
        let far = if self.random.chance(8) { 1 } else { 0 };
        let place = if self.goes_astray() {
            self.place_astray()
        } else {
            let pointer = self.builder.shifted_variable(variable, far);
            self.builder.pointed(pointer)
        };
        let expression = self.integer(2);
        if let Holds::Block { length, .. } = self.holds(variable) {
            self.set_holds(
                variable,
                Holds::Block {
                    length,
                    filled: true,
                },
            );
        }
        self.builder.take(place, expression)
    }

    /// The size of a new block: mostly small, now and then one that ends 45 or 30.
    fn size(&mut self) -> i64 {
        match self.random.below(30) {
            0 => self.random.range(-2, 0),
            1 | 2 => self.random.range(200, 1100),
            3 => self.random.pick(&[1019, 1020, 1021, 1024, 1025, i64::MAX]),
            _ => self.random.range(1, 6),
        }
    }

    fn take_new(&mut self) -> u16 {
        let free = |holds: Holds| !holds.is_live_pointer() && holds != Holds::Count;
        let some = self.variable_that(free);
        let variable = some.unwrap_or(0);
        let place = if self.random.chance(8) {
            self.any_place(2)
        } else if self.goes_astray() {
            self.place_astray()
        } else {
            self.builder.variable(variable)
        };
        let length = self.size();
        let size = if self.random.chance(6) {
            self.integer(2)
        } else {
            self.builder.literal(length)
        };
        self.set_holds(
            variable,
            Holds::Block {
                length,
                filled: false,
            },
        );
        self.builder.take_new(place, size)
    }

    fn free(&mut self) -> u16 {
        if self.random.chance(12) {
            let pointer = self.pointer(1);
            return self.builder.free(pointer);
        }
        let Some(variable) = self.variable_that(Holds::is_block) else {
            return self.builder.skip();
        };
        let pointer = self.builder.read_variable(variable);
        self.set_holds(variable, Holds::Freed);
        let freed = self.builder.free(pointer);
        if self.in_target || self.random.chance(70) {
            return freed;
        }
        let predicate = self.predicate_on_freed();
        let assertion = self.builder.assert(predicate);
        self.builder.then(freed, assertion)
    }

    pub fn assertion(&mut self) -> u16 {
        if self.in_target {
            return self.own_assertion();
        }
        if self.compares() {
            let predicate = self.compared_terms();
            return self.builder.assert(predicate);
        }
        let room = self.limit.saturating_sub(self.builder.len());
        let predicate = match self.random.below(100) {
            0 | 1 if room > 75 => {
                let levels = self.random.range(56, 64) as u64;
                self.deep_predicate(levels)
            }
            2..=7 => self.predicate_on_freed(),
            0..=69 => self.likely_predicate(),
            _ => self.predicate(3),
        };
        self.builder.assert(predicate)
    }

    fn choice(&mut self, depth: u32) -> u16 {
        let condition = self.integer(2);
        let before = self.scope.clone();
        let then = self.statements(depth - 1);
        self.scope = before;
        let otherwise = self.statements(depth - 1);
        self.builder.if_else(condition, then, otherwise)
    }

    /// A loop that only fuel, names or cells may end.
    fn loop_for_ever(&mut self, depth: u32) -> u16 {
        let condition = match self.random.below(3) {
            0 => self.builder.literal(1),
            1 => self.builder.literal(0),
            _ => self.integer(2),
        };
        let body = self.statements(depth - 1);
        self.builder.while_do(condition, body)
    }

    fn counted_loop(&mut self, depth: u32) -> u16 {
        let Some(counter) = self.fresh_variable() else {
            return self.builder.skip();
        };
        self.scope.push((counter, Holds::Count));
        let turns = self.random.pick(&[1, 2, 2, 3, 5, 300]);
        let count = self.builder.start_count(counter, turns);
        let body = self.statements(depth - 1);
        self.scope.pop();
        self.builder.end_count(count, body)
    }

    /// The variables that a let may take here.
    pub fn fresh_variables(&self) -> Vec<u8> {
        let used = |variable: u8| self.scope.iter().any(|(name, _)| *name == variable);
        (1..VARIABLES as u8).filter(|&v| !used(v)).collect()
    }

    fn fresh_variable(&mut self) -> Option<u8> {
        let fresh = self.fresh_variables();
        (!fresh.is_empty()).then(|| self.random.pick(&fresh))
    }

    pub fn let_block(&mut self, depth: u32) -> u16 {
        let Some(variable) = self.fresh_variable() else {
            return self.builder.skip();
        };
        self.scope.push((variable, Holds::Nothing));
        let mut parts = Vec::new();
        if self.in_target && self.random.chance(70) {
            parts.push(self.record_let(variable));
        }
        if self.astray > 0 && self.random.chance(50) {
            parts.push(self.new_and_freed(variable));
        }
        match self.random.below(10) {
            _ if self.comparing > 0 => self.prepare_to_compare(variable, depth, &mut parts),
            0..=3 => parts.push(self.take_integer()),
            4..=6 => parts.push(self.take_new()),
            7 => parts.push(self.take_pointer()),
            _ => {}
        }
        parts.push(self.statements(depth.saturating_sub(1)));
        self.scope.pop();
        for (_, holds) in self.scope.iter_mut() {
            if *holds == Holds::Variable(variable) {
                *holds = Holds::Freed;
            }
        }
        let inside = self.builder.sequence(&parts);
        self.builder.let_in(variable, inside)
    }

    /// A whole program in child-first order.
    pub fn program(&mut self) -> u16 {
        if self.names > 0 {
            self.program_after_names()
        } else {
            self.program_proper()
        }
    }

    pub fn program_proper(&mut self) -> u16 {
        let depth = self.random.range(1, 5) as u32;
        if self.comparing > 0 {
            // A let begins with records of its own, before any statement is labelled.
            self.relabel();
            self.let_block(depth)
        } else if self.random.chance(70) {
            self.let_block(depth)
        } else {
            self.statements(depth)
        }
    }
}
