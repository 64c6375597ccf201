//! Growing the statements that only a target has.

use super::grow::{Grower, Holds};

impl Grower<'_> {
    /// A mark from which `reach` temporaries are named; mostly a low one, so that they meet.
    fn temporary(&mut self, reach: i64) -> u8 {
        let highest = 64 - reach;
        let mark = if self.random.chance(4) {
            self.random.range(highest - 3, highest)
        } else {
            self.random.range(0, 5)
        };
        mark as u8
    }

    fn fill(&mut self, temporary: u8, holds: Holds) {
        if let Some(known) = self.temporaries.get_mut(usize::from(temporary)) {
            *known = holds;
        }
    }

    fn is_filled(&self, temporary: u8, wanted: impl Fn(Holds) -> bool) -> bool {
        self.temporaries
            .get(usize::from(temporary))
            .is_some_and(|&holds| wanted(holds))
    }

    /// 61 with an integer.
    fn take_integer_temporary(&mut self, temporary: u8) -> u16 {
        let expression = self.integer(2);
        self.fill(temporary, Holds::Integer);
        self.builder.add(61, temporary, [expression, 0, 0])
    }

    /// 60 of a place or 61 with a pointer.
    fn take_pointer_temporary(&mut self, temporary: u8) -> u16 {
        self.fill(temporary, Holds::Inputs);
        if self.random.chance(40) {
            let variable = self.variable_that(|_| true).unwrap_or(0);
            let place = self.builder.variable(variable);
            return self.builder.add(60, temporary, [place, 0, 0]);
        }
        if self.random.chance(15) {
            let place = self.any_place(2);
            return self.builder.add(60, temporary, [place, 0, 0]);
        }
        let expression = self.pointer(2);
        self.builder.add(61, temporary, [expression, 0, 0])
    }

    /// What makes the temporary an integer, unless it is one or the growing is wild.
    fn need_integer(&mut self, temporary: u8) -> Vec<u16> {
        let there = self.is_filled(temporary, |holds| holds == Holds::Integer);
        if there && self.random.chance(50) || self.random.chance(2 + self.wild) {
            return Vec::new();
        }
        vec![self.take_integer_temporary(temporary)]
    }

    fn need_pointer(&mut self, temporary: u8) -> Vec<u16> {
        let there = self.is_filled(temporary, Holds::is_live_pointer);
        if there && self.random.chance(50) || self.random.chance(2 + self.wild) {
            return Vec::new();
        }
        vec![self.take_pointer_temporary(temporary)]
    }

    pub fn own_statement(&mut self, depth: u32) -> u16 {
        let mut parts = Vec::new();
        if self.compares() {
            self.compare_temporaries(&mut parts);
            self.relabel();
            return self.builder.sequence(&parts);
        }
        match self.random.below(12) {
            0 | 1 => {
                let mark = self.temporary(1);
                parts.push(self.take_integer_temporary(mark));
            }
            2 => {
                let mark = self.temporary(1);
                parts.push(self.take_pointer_temporary(mark));
            }
            3 | 4 => self.operate_temporaries(&mut parts),
            5 | 6 => self.query_temporary(&mut parts),
            7 => {
                let mark = self.temporary(2);
                parts.extend(self.need_integer(mark + 1));
                parts.push(self.builder.add(65, mark, [0; 3]));
                self.fill(mark, Holds::Integer);
            }
            8 => self.branch(&mut parts, depth),
            9 => return self.own_assertion(),
            _ => self.call(&mut parts),
        }
        self.relabel();
        self.builder.sequence(&parts)
    }

    fn operate_temporaries(&mut self, parts: &mut Vec<u16>) {
        let mark = self.temporary(3);
        let operator = self.random.range(1, 8) as u16;
        let pointers = operator == 8 || operator == 7 && self.random.chance(50);
        if pointers {
            parts.extend(self.need_pointer(mark + 1));
        } else {
            parts.extend(self.need_integer(mark + 1));
        }
        if operator == 7 && pointers {
            parts.extend(self.need_pointer(mark + 2));
        } else {
            parts.extend(self.need_integer(mark + 2));
        }
        self.fill(
            mark,
            if operator == 8 {
                Holds::Inputs
            } else {
                Holds::Integer
            },
        );
        parts.push(self.builder.add(63, mark, [0, 0, operator]));
    }

    fn query_temporary(&mut self, parts: &mut Vec<u16>) {
        let mark = self.temporary(2);
        let query = self.random.range(1, 5) as u16;
        parts.extend(self.need_pointer(mark + 1));
        self.fill(
            mark,
            if query == 3 {
                Holds::Inputs
            } else {
                Holds::Integer
            },
        );
        parts.push(self.builder.add(64, mark, [0, 0, query]));
    }

    fn branch(&mut self, parts: &mut Vec<u16>, depth: u32) {
        let mark = self.temporary(1);
        parts.extend(self.need_integer(mark));
        let then = self.statement(depth.saturating_sub(1));
        let otherwise = self.statement(depth.saturating_sub(1));
        self.relabel();
        parts.push(self.builder.add(66, mark, [0, then, otherwise]));
    }

    /// 67, mostly of something true.
    pub fn own_assertion(&mut self) -> u16 {
        let mark = self.temporary(1);
        let mut parts = Vec::new();
        if self.random.chance(80) {
            let one = self.builder.literal(1);
            parts.push(self.builder.add(61, mark, [one, 0, 0]));
            self.fill(mark, Holds::Integer);
        } else {
            parts.extend(self.need_integer(mark));
        }
        parts.push(self.builder.add(67, mark, [0; 3]));
        self.builder.sequence(&parts)
    }

    /// 68, 69 or 70.
    fn call(&mut self, parts: &mut Vec<u16>) {
        let kind = self.random.pick(&[68, 69, 70, 70, 70, 70]);
        let mark = self.temporary(2);
        parts.extend(self.need_pointer(mark));
        if kind == 68 {
            parts.extend(self.need_integer(mark + 1));
        }
        parts.push(self.builder.add(kind, mark, [0; 3]));
    }

    /// The block of a fresh variable recorded, as a translation would, or nearly so.
    pub fn record_let(&mut self, variable: u8) -> u16 {
        let length = if self.random.chance(90) {
            1
        } else {
            self.random.range(-1, 1100)
        };
        self.fill(0, Holds::Inputs);
        self.fill(1, Holds::Integer);
        self.builder.record_let(variable, length)
    }
}
