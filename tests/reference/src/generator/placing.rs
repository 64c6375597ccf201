//! Programs that make and free blocks in any order, so that free cells, or free marks, lie in holes of every length.

use super::Generator;
use crate::builder::Builder;

/// Variables 1, 2 .. hold the blocks, and one more is let for a step alone.
const SLOTS: u8 = 12;
const INNER: u8 = SLOTS + 1;

/// A new block of a size in a variable, or the end of the one that it holds.
enum Step {
    New(u8, i64),
    End(u8),
}

fn within_lets(b: &mut Builder, steps: &[u16]) -> Vec<u8> {
    let mut body = b.sequence(steps);
    for variable in 1..=SLOTS {
        body = b.let_in(variable, body);
    }
    b.table()
}

impl Generator {
    /// Of sizes up to one that most memories hold, or to one that fills them. Now and then the end of what is no block.
    fn steps(&mut self, most: i64) -> Vec<Step> {
        let highest = self.random.pick(&[3, 40, 200]);
        let mut held: Vec<u8> = Vec::new();
        let count = self.random.range(1, most);
        let steps = (0..count).map(|_| {
            if self.random.chance(1) {
                return Step::End(1 + self.random.index(SLOTS.into()) as u8);
            }
            if !held.is_empty() && self.random.chance(45) {
                return Step::End(held.swap_remove(self.random.index(held.len())));
            }
            let variable = 1 + self.random.index(SLOTS.into()) as u8;
            held.retain(|&other| other != variable);
            held.push(variable);
            Step::New(variable, self.random.range(1, highest))
        });
        steps.collect()
    }

    /// A source whose lets, new blocks and frees leave holes in the cells.
    pub fn placing_source(&mut self) -> Vec<u8> {
        let mut b = Builder::source();
        let mut statements = Vec::new();
        for step in self.steps(45) {
            let mut statement = match step {
                Step::New(variable, size) => b.new_in(variable, size),
                Step::End(variable) => b.free_variable(variable),
            };
            if self.random.chance(20) {
                statement = b.let_in(INNER, statement);
            }
            statements.push(statement);
        }
        within_lets(&mut b, &statements)
    }

    /// A target whose recorded and deleted blocks leave holes in the marks, where the cells have none.
    pub fn placing_target(&mut self) -> Vec<u8> {
        let mut b = Builder::target(1);
        let mut statements = Vec::new();
        for step in self.steps(120) {
            let (variable, kind) = match step {
                Step::New(variable, size) => {
                    statements.push(b.new_in(variable, 1));
                    let size = b.literal(size);
                    statements.push(b.add(61, 1, [size, 0, 0]));
                    (variable, 68)
                }
                Step::End(variable) => (variable, 69),
            };
            let block = b.read_variable(variable);
            statements.push(b.add(61, 0, [block, 0, 0]));
            statements.push(b.add(kind, 0, [0; 3]));
        }
        within_lets(&mut b, &statements)
    }
}
