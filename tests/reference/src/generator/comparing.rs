//! Programs that compare pointers, into dead and unrecorded blocks too, more often than others do.

use super::grow::{Grower, Holds};
use super::Generator;

/// Percent; about one program in five ends 47 at a comparison.
pub(super) const COMPARING: u64 = 30;

impl Grower<'_> {
    /// A program that compares no more than others draws nothing here, so that its seed gives what it always gave.
    pub fn compares(&mut self) -> bool {
        self.comparing > 0 && self.random.chance(self.comparing)
    }

    /// What a let begins with: a block for its variable, and often a let with another.
    pub fn prepare_to_compare(&mut self, variable: u8, depth: u32, parts: &mut Vec<u16>) {
        parts.push(self.block_to_compare(variable));
        if self.random.chance(40) {
            parts.push(self.let_block(depth));
        }
    }

    /// The variable points to a block that is freed every other time; in a target it may be recorded and deleted.
    fn block_to_compare(&mut self, variable: u8) -> u16 {
        let length = self.random.range(1, 4);
        let mut parts = vec![self.builder.new_in(variable, length)];
        let recorded = self.in_target && self.random.chance(70);
        if recorded {
            parts.push(self.record_pointed(variable, length));
        }
        let filled = false;
        self.set_holds(variable, Holds::Block { length, filled });
        if self.random.chance(50) {
            parts.push(self.builder.free_variable(variable));
            self.set_holds(variable, Holds::Freed);
        }
        if recorded && self.random.chance(50) {
            parts.push(self.builder.add(69, 0, [0; 3]));
        }
        self.builder.sequence(&parts)
    }

    /// t0 takes the variable's value, and its block is recorded.
    pub fn record_pointed(&mut self, variable: u8, length: i64) -> u16 {
        let pointer = self.builder.read_variable(variable);
        let saved = self.builder.add(61, 0, [pointer, 0, 0]);
        let length = self.builder.literal(length);
        let sized = self.builder.add(61, 1, [length, 0, 0]);
        let stored = self.builder.add(68, 0, [0; 3]);
        self.temporaries[0] = Holds::Inputs;
        self.temporaries[1] = Holds::Integer;
        self.builder.sequence(&[saved, sized, stored])
    }

    /// Into a freed block, if there is one, or a live one; now and then shifted, or an integer.
    fn pointer_to_compare(&mut self) -> u16 {
        let freed = self.variable_that(|holds| holds == Holds::Freed);
        let variable = match freed.filter(|_| self.random.chance(40)) {
            Some(variable) => variable,
            None => self.variable_that(Holds::is_live_pointer).unwrap_or(0),
        };
        match self.random.below(40) {
            0 => self.builder.literal(variable.into()),
            1..=8 => {
                let by = self.random.pick(&[-1, 1, 9, i64::MIN, i64::MAX]);
                self.builder.shifted_variable(variable, by)
            }
            _ => self.builder.read_variable(variable),
        }
    }

    /// Kind 4.
    pub fn compared_pointers(&mut self) -> u16 {
        let left = self.pointer_to_compare();
        let right = self.pointer_to_compare();
        self.builder.operator(7, left, right)
    }

    /// Kind 32, turned round every other time, as most pointers differ.
    pub fn compared_terms(&mut self) -> u16 {
        let left = self.pointer_to_compare();
        let left = self.builder.term(left);
        let right = self.pointer_to_compare();
        let right = self.builder.term(right);
        let equal = self.builder.compare(7, left, right);
        if self.random.chance(50) {
            return equal;
        }
        self.builder.not(equal)
    }

    /// Kind 63, now and then with a temporary that nothing was put into.
    pub fn compare_temporaries(&mut self, parts: &mut Vec<u16>) {
        let mark = self.random.range(0, 4) as u8;
        for temporary in [mark + 1, mark + 2] {
            if self.random.chance(98) {
                let pointer = self.pointer_to_compare();
                parts.push(self.builder.add(61, temporary, [pointer, 0, 0]));
                self.temporaries[usize::from(temporary)] = Holds::Inputs;
            }
        }
        parts.push(self.builder.add(63, mark, [0, 0, 7]));
        self.temporaries[usize::from(mark)] = Holds::Integer;
    }
}

impl Generator {
    pub fn comparing_source(&mut self) -> Vec<u8> {
        self.source_grown(|grower| grower.comparing = COMPARING)
    }

    pub fn comparing_target(&mut self) -> Vec<u8> {
        self.target_grown(|grower| grower.comparing = COMPARING)
    }
}
