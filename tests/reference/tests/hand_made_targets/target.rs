//! Building a target statement by statement, and running it watched.

use reference::builder::Builder;
use reference::host::{inputs, watched};

/// The label of the statement that a test expects to be named.
pub const HERE: i64 = 200;

/// Number of the watched run on inputs 7, 9; a stop must name the statement labelled `HERE`.
pub fn number(build: impl FnOnce(&mut Target)) -> u32 {
    let mut target = Target {
        b: Builder::target(1),
        parts: Vec::new(),
    };
    build(&mut target);
    let parts = target.parts.clone();
    target.b.sequence(&parts);
    let (answer, _, _) = watched(&target.b.table(), &inputs(&[7, 9]), 200);
    let statement = if answer.number == 0 { 0 } else { HERE as u32 };
    assert_eq!(answer.record, statement);
    answer.number
}

pub fn ends(expected: u32, build: impl FnOnce(&mut Target)) {
    assert_eq!(number(build), expected);
}

pub struct Target {
    pub b: Builder,
    pub parts: Vec<u16>,
}

impl Target {
    pub fn integer(&mut self, temporary: u8, literal: i64) -> &mut Target {
        let expression = self.b.literal(literal);
        self.parts
            .push(self.b.add(61, temporary, [expression, 0, 0]));
        self
    }

    /// The temporary takes the inputs' address, shifted.
    pub fn inputs(&mut self, temporary: u8, by: i64) -> &mut Target {
        let expression = self.b.shifted_variable(0, by);
        self.parts
            .push(self.b.add(61, temporary, [expression, 0, 0]));
        self
    }

    /// A new block of this size, unknown to the observation memory, with its pointer in t`n`.
    pub fn new_block(&mut self, temporary: u8, size: i64) -> &mut Target {
        let place = self.b.variable(0);
        let size = self.b.literal(size);
        self.parts.push(self.b.take_new(place, size));
        let pointer = self.b.read_variable(0);
        self.parts.push(self.b.add(61, temporary, [pointer, 0, 0]));
        self
    }

    /// So many names given and ended again, unknown to the observation memory.
    pub fn names(&mut self, count: usize) -> &mut Target {
        self.parts.push(self.b.give_names(count));
        self
    }

    /// The temporary takes a pointer, shifted, to a block of 2 cells that is freed before.
    pub fn dead_block(&mut self, temporary: u8, by: i64) -> &mut Target {
        let new = self.b.new_in(0, 2);
        let free = self.b.free_variable(0);
        self.parts.extend([new, free]);
        self.inputs(temporary, by)
    }

    pub fn statement(&mut self, kind: u8, mark: u8, c: u16) -> &mut Target {
        self.parts.push(self.b.add(kind, mark, [0, 0, c]));
        self
    }

    /// The statement that should be named where the run stops.
    pub fn here(&mut self, kind: u8, mark: u8, c: u16) -> &mut Target {
        self.b.label = HERE;
        self.statement(kind, mark, c);
        self.b.label = 1;
        self
    }

    /// Ends a chain of calls.
    pub fn end(&mut self) {}
}
