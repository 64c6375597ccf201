//! Growing expressions and places, guided by what each variable is likely to hold.

use super::many_names;
use super::random::Random;
use crate::builder::Builder;
use crate::limits::TEMPORARIES;

/// What a variable or temporary holds when the program runs as meant.
#[derive(Debug, Clone, Copy, PartialEq, Eq)]
pub enum Holds {
    Nothing,
    Integer,
    /// A pointer to a block made by a 42, and whether its first cell is stored.
    Block {
        length: i64,
        filled: bool,
    },
    Inputs,
    Variable(u8),
    Freed,
    /// The count of a loop, which the loop's body leaves alone.
    Count,
}

impl Holds {
    pub fn is_live_pointer(self) -> bool {
        matches!(
            self,
            Holds::Block { .. } | Holds::Inputs | Holds::Variable(_)
        )
    }

    pub fn is_block(self) -> bool {
        matches!(self, Holds::Block { .. })
    }

    pub fn is_readable(self) -> bool {
        matches!(self, Holds::Block { filled: true, .. } | Holds::Inputs)
    }
}

pub struct Grower<'random> {
    pub random: &'random mut Random,
    pub builder: Builder,
    /// The variables in scope, innermost last.
    pub scope: Vec<(u8, Holds)>,
    pub temporaries: [Holds; TEMPORARIES],
    pub in_target: bool,
    /// Percent of choices that ask nothing of what is held.
    pub wild: u64,
    /// Percent of numbers and places that are looked for where no cell is.
    pub astray: u64,
    /// Percent of numbers and assertions that compare pointers.
    pub comparing: u64,
    /// Names given and ended before the program proper; none for most programs.
    pub names: usize,
    /// Beyond this many records only small parts are grown.
    pub limit: usize,
}

impl<'random> Grower<'random> {
    pub fn new(random: &'random mut Random, in_target: bool) -> Grower<'random> {
        let wild = random.pick(&[0, 0, 0, 1, 3, 12]);
        let limit = random.range(6, 190) as usize;
        let names = many_names::of_ordinary(in_target, random);
        Grower {
            random,
            builder: Builder::default(),
            scope: vec![(0, Holds::Inputs)],
            temporaries: [Holds::Nothing; TEMPORARIES],
            in_target,
            wild,
            astray: 0,
            comparing: 0,
            names,
            limit,
        }
    }

    pub fn full(&self) -> bool {
        self.builder.len() >= self.limit
    }

    /// A variable in scope that holds what is wanted.
    pub fn variable_that(&mut self, wanted: impl Fn(Holds) -> bool) -> Option<u8> {
        let fitting = self.scope.iter().filter(|(_, holds)| wanted(*holds));
        let variables: Vec<u8> = fitting.map(|(variable, _)| *variable).collect();
        (!variables.is_empty()).then(|| self.random.pick(&variables))
    }

    pub fn holds(&self, variable: u8) -> Holds {
        let known = self.scope.iter().find(|(name, _)| *name == variable);
        known.map_or(Holds::Nothing, |(_, holds)| *holds)
    }

    pub fn set_holds(&mut self, variable: u8, holds: Holds) {
        if let Some(known) = self.scope.iter_mut().find(|(name, _)| *name == variable) {
            known.1 = holds;
        }
    }

    /// An expression that should give an integer.
    pub fn integer(&mut self, depth: u32) -> u16 {
        if self.random.chance(self.wild) {
            return self.any_expression(depth);
        }
        if self.goes_astray() {
            let place = self.place_astray();
            return self.builder.read(place);
        }
        if self.compares() {
            return self.compared_pointers();
        }
        if depth == 0 || self.full() {
            return self.number();
        }
        match self.random.below(11) {
            0 | 1 => self.number(),
            2 | 3 => match self.variable_that(|holds| holds == Holds::Integer) {
                Some(variable) => self.builder.read_variable(variable),
                None => self.number(),
            },
            4 | 5 => match self.variable_that(Holds::is_readable) {
                Some(variable) => self.builder.read_pointed(variable),
                None => self.number(),
            },
            6 => {
                let left = self.pointer(depth - 1);
                let right = self.pointer(depth - 1);
                self.builder.operator(7, left, right)
            }
            7 => self.dangling(),
            _ => self.arithmetic(depth),
        }
    }

    /// Now and then a read of what was freed, which should end 42.
    fn dangling(&mut self) -> u16 {
        match self.variable_that(|holds| holds == Holds::Freed) {
            Some(variable) if self.random.chance(40) => self.builder.read_pointed(variable),
            _ => self.number(),
        }
    }

    fn arithmetic(&mut self, depth: u32) -> u16 {
        let operator = self.random.range(1, 7) as u8;
        let left = self.integer(depth - 1);
        let divides = matches!(operator, 4 | 5);
        let right = if divides && self.random.chance(85) {
            let divisor = self.random.pick(&[1, 2, 3, -2, -7, 10]);
            self.builder.literal(divisor)
        } else {
            self.integer(depth - 1)
        };
        self.builder.operator(operator, left, right)
    }

    fn number(&mut self) -> u16 {
        let literal = match self.random.below(24) {
            0 => self
                .random
                .pick(&[i64::MIN, i64::MAX, i64::MIN + 1, i64::MAX - 1]),
            1 => self.random.draw() as i64,
            2 | 3 => 0,
            _ => self.random.range(-4, 12),
        };
        self.builder.literal(literal)
    }

    /// An expression that should give a pointer.
    pub fn pointer(&mut self, depth: u32) -> u16 {
        if self.random.chance(self.wild) {
            return self.any_expression(depth);
        }
        match self
            .random
            .below(if depth == 0 || self.full() { 6 } else { 9 })
        {
            0 | 1 => {
                let variable = self.variable_that(|_| true).unwrap_or(0);
                self.builder.address_of_variable(variable)
            }
            2..=5 => match self.variable_that(Holds::is_live_pointer) {
                Some(variable) => self.builder.read_variable(variable),
                None => self.builder.address_of_variable(0),
            },
            6 => {
                let pointer = self.pointer(depth - 1);
                let place = self.builder.pointed(pointer);
                self.builder.address(place)
            }
            _ => self.shifted(depth),
        }
    }

    fn shifted(&mut self, depth: u32) -> u16 {
        let pointer = self.pointer(depth - 1);
        let by = match self.random.below(12) {
            0 => self.integer(depth - 1),
            1 => self.builder.literal(i64::MAX),
            2 => self.builder.literal(-1),
            3 => self.builder.literal(1),
            _ => self.builder.literal(0),
        };
        self.builder.shift(pointer, by)
    }

    /// An expression that asks nothing of what is held.
    pub fn any_expression(&mut self, depth: u32) -> u16 {
        let choice = self
            .random
            .below(if depth == 0 || self.full() { 3 } else { 7 });
        match choice {
            0 => self.number(),
            1 => {
                let place = self.any_place(depth);
                self.builder.read(place)
            }
            2 => {
                let place = self.any_place(depth);
                self.builder.address(place)
            }
            3 => {
                let left = self.any_expression(depth - 1);
                let right = self.any_expression(depth - 1);
                self.builder.shift(left, right)
            }
            _ => {
                let operator = self.random.range(1, 7) as u8;
                let left = self.any_expression(depth - 1);
                let right = self.any_expression(depth - 1);
                self.builder.operator(operator, left, right)
            }
        }
    }

    pub fn any_place(&mut self, depth: u32) -> u16 {
        if self.in_target && self.random.chance(25) {
            let temporary = self.random.below(4) as u8;
            return self.builder.add(12, temporary, [0; 3]);
        }
        if depth == 0 || self.full() || self.random.chance(50) {
            let variable = self.variable_that(|_| true).unwrap_or(0);
            return self.builder.variable(variable);
        }
        let expression = self.any_expression(depth - 1);
        self.builder.pointed(expression)
    }
}
