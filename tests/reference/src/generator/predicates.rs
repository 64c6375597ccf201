//! Growing terms and predicates.

use super::grow::{Grower, Holds};

impl Grower<'_> {
    fn integer_term(&mut self, depth: u32) -> u16 {
        if depth == 0 || self.full() {
            let expression = self.integer(1);
            return self.builder.term(expression);
        }
        match self.random.below(6) {
            0 | 1 => {
                let expression = self.integer(depth);
                self.builder.term(expression)
            }
            2 | 3 => {
                let pointer = self.pointer_term(depth - 1);
                let kind = self.random.pick(&[22, 23]);
                self.builder.add(kind, 0, [pointer, 0, 0])
            }
            _ => {
                let operator = self.random.range(1, 5) as u8;
                let left = self.integer_term(depth - 1);
                let right = self.integer_term(depth - 1);
                self.builder.term_operator(operator, left, right)
            }
        }
    }

    fn pointer_term(&mut self, depth: u32) -> u16 {
        if self.random.chance(self.wild) {
            let expression = self.any_expression(depth);
            return self.builder.term(expression);
        }
        let freed = self.variable_that(|holds| holds == Holds::Freed);
        if let Some(freed) = freed.filter(|_| self.random.chance(20)) {
            return self.builder.variable_term(freed);
        }
        match self
            .random
            .below(if depth == 0 || self.full() { 3 } else { 5 })
        {
            0..=2 => {
                let expression = self.pointer(depth);
                self.builder.term(expression)
            }
            3 => {
                let pointer = self.pointer_term(depth - 1);
                self.builder.base(pointer)
            }
            _ => {
                let pointer = self.pointer_term(depth - 1);
                let by = self.integer_term(0);
                self.builder.term_operator(8, pointer, by)
            }
        }
    }

    pub fn predicate(&mut self, depth: u32) -> u16 {
        let choice = self
            .random
            .below(if depth == 0 || self.full() { 5 } else { 9 });
        match choice {
            0 | 1 => self.likely_predicate(),
            2 | 3 => {
                let term = self.pointer_term(depth);
                let kind = self.random.pick(&[30, 31]);
                self.builder.add(kind, 0, [term, 0, 0])
            }
            4 => self.comparison(depth),
            5 => {
                let predicate = self.predicate(depth - 1);
                self.builder.not(predicate)
            }
            _ => {
                let left = self.predicate(depth - 1);
                let right = self.predicate(depth - 1);
                let kind = self.random.pick(&[34, 35]);
                self.builder.add(kind, 0, [left, right, 0])
            }
        }
    }

    fn comparison(&mut self, depth: u32) -> u16 {
        if self.random.chance(30) {
            let left = self.pointer_term(depth);
            let right = self.pointer_term(depth);
            return self.builder.compare(7, left, right);
        }
        let operator = self.random.pick(&[6, 7]);
        let left = self.integer_term(depth);
        let right = self.integer_term(depth);
        self.builder.compare(operator, left, right)
    }

    /// A predicate that holds when the program runs as meant.
    pub fn likely_predicate(&mut self) -> u16 {
        let variable = self.variable_that(Holds::is_live_pointer).unwrap_or(0);
        match (self.random.below(5), self.holds(variable)) {
            (0, _) => self.builder.compare_literals(6, -1, 1),
            (1, Holds::Block { length, .. }) => {
                let pointer = self.builder.variable_term(variable);
                let measured = self.builder.length(pointer);
                let length = self.builder.literal_term(length);
                self.builder.compare(7, measured, length)
            }
            (2, holds) if holds.is_readable() => {
                let pointer = self.builder.variable_term(variable);
                self.builder.initialised(pointer)
            }
            (3, _) => {
                let pointer = self.builder.address_term(variable);
                self.builder.initialised(pointer)
            }
            _ => {
                let any = self.variable_that(|_| true).unwrap_or(0);
                let pointer = self.builder.address_term(any);
                self.builder.valid(pointer)
            }
        }
    }

    /// A predicate on a freed block: false, or 47 where it asks for base, offset or length.
    pub fn predicate_on_freed(&mut self) -> u16 {
        let Some(variable) = self.variable_that(|holds| holds == Holds::Freed) else {
            return self.likely_predicate();
        };
        let pointer = self.builder.variable_term(variable);
        match self.random.below(4) {
            0 => {
                let valid = self.builder.valid(pointer);
                self.builder.not(valid)
            }
            1 => {
                let base = self.builder.base(pointer);
                self.builder.initialised(base)
            }
            choice => {
                let asked = match choice {
                    2 => self.builder.offset(pointer),
                    _ => self.builder.length(pointer),
                };
                let number = self.integer_term(0);
                self.builder.compare(6, asked, number)
            }
        }
    }

    /// A predicate whose deepest parts come near the last temporary, or past it.
    pub fn deep_predicate(&mut self, levels: u64) -> u16 {
        if self.random.chance(50) {
            let mut predicate = self.likely_predicate();
            for _ in 0..levels {
                predicate = self.builder.not(predicate);
            }
            return predicate;
        }
        // B of a 24 stands two levels down; child-first order asks for the As first.
        let mut waiting = Vec::new();
        for _ in 0..=levels / 2 {
            let one = self.builder.literal(1);
            waiting.push(self.builder.term(one));
        }
        let last = self.builder.literal(0);
        let mut right = self.builder.term(last);
        while waiting.len() > 1 {
            let left = waiting.pop().unwrap_or(0);
            right = self.builder.term_operator(1, left, right);
        }
        self.builder.compare(6, waiting[0], right)
    }
}
