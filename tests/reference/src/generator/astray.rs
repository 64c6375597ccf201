//! Programs that read and store in dead blocks and outside live ones more often than others do.

use super::grow::{Grower, Holds};
use super::Generator;

/// Percent; about one program in four ends 42 or 50.
pub(super) const ASTRAY: u64 = 12;

impl Grower<'_> {
    /// A program that never goes astray draws nothing here, so that its seed gives what it always gave.
    pub fn goes_astray(&mut self) -> bool {
        self.astray > 0 && self.random.chance(self.astray)
    }

    /// The variable points to a dead block.
    pub fn new_and_freed(&mut self, variable: u8) -> u16 {
        let size = self.random.range(1, 6);
        let new = self.builder.new_in(variable, size);
        let free = self.builder.free_variable(variable);
        self.set_holds(variable, Holds::Freed);
        self.builder.then(new, free)
    }

    /// A place in what was freed, if there is such a block, or out of what a variable points to.
    pub fn place_astray(&mut self) -> u16 {
        let freed = self.variable_that(|holds| holds == Holds::Freed);
        let pointer = match freed.filter(|_| self.random.chance(75)) {
            Some(variable) => {
                let by = self.random.pick(&[0, 0, 0, 1, -1, i64::MAX]);
                self.builder.shifted_variable(variable, by)
            }
            None => {
                let variable = self.variable_that(Holds::is_live_pointer).unwrap_or(0);
                let by = self.random.pick(&[-1, 1, 2, 6, 300, i64::MIN, i64::MAX]);
                self.builder.shifted_variable(variable, by)
            }
        };
        self.builder.pointed(pointer)
    }
}

impl Generator {
    pub fn astray_source(&mut self) -> Vec<u8> {
        self.source_grown(|grower| grower.astray = ASTRAY)
    }

    pub fn astray_target(&mut self) -> Vec<u8> {
        self.target_grown(|grower| grower.astray = ASTRAY)
    }
}
