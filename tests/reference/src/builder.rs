//! Tables by hand: each call adds one record and returns its number.

use crate::record::{table, Record};

/// Variable 0 takes `left operator right`, of kind 4.
pub fn calculation(operator: u8, left: i64, right: i64) -> Vec<u8> {
    let mut b = Builder::source();
    let place = b.variable(0);
    let left = b.literal(left);
    let right = b.literal(right);
    let result = b.operator(operator, left, right);
    b.take(place, result);
    b.table()
}

/// The assertion that `left operator right`, of kind 24, equals `result`.
pub fn asserted_calculation(operator: u8, left: i64, right: i64, result: i64) -> Vec<u8> {
    let mut b = Builder::source();
    let left = b.literal_term(left);
    let right = b.literal_term(right);
    let calculated = b.term_operator(operator, left, right);
    let result = b.literal_term(result);
    let equal = b.compare(7, calculated, result);
    b.assert(equal);
    b.table()
}

/// Children are added before their parent, so calls nest in the order A, B, C, parent.
#[derive(Debug, Clone, Default)]
pub struct Builder {
    records: Vec<Record>,
    /// The literal of kinds from 40 on: 0 in a source, the source statement in a target.
    pub label: i64,
}

impl Builder {
    pub fn source() -> Builder {
        Builder::default()
    }

    pub fn target(label: i64) -> Builder {
        Builder {
            records: Vec::new(),
            label,
        }
    }

    pub fn len(&self) -> usize {
        self.records.len()
    }

    pub fn is_empty(&self) -> bool {
        self.records.is_empty()
    }

    pub fn records(&self) -> &[Record] {
        &self.records
    }

    pub fn table(&self) -> Vec<u8> {
        table(&self.records)
    }

    pub fn push(&mut self, record: Record) -> u16 {
        self.records.push(record);
        self.records.len() as u16
    }

    pub fn add(&mut self, kind: u8, mark: u8, [a, b, c]: [u16; 3]) -> u16 {
        let literal = if kind >= 40 { self.label } else { 0 };
        self.push(Record {
            kind,
            mark,
            a,
            b,
            c,
            literal,
        })
    }

    pub fn literal(&mut self, literal: i64) -> u16 {
        self.push(Record {
            kind: 1,
            literal,
            ..Record::default()
        })
    }

    pub fn variable(&mut self, variable: u8) -> u16 {
        self.add(10, variable, [0; 3])
    }

    pub fn pointed(&mut self, expression: u16) -> u16 {
        self.add(11, 0, [expression, 0, 0])
    }

    pub fn read(&mut self, place: u16) -> u16 {
        self.add(2, 0, [place, 0, 0])
    }

    pub fn address(&mut self, place: u16) -> u16 {
        self.add(3, 0, [place, 0, 0])
    }

    pub fn operator(&mut self, operator: u8, left: u16, right: u16) -> u16 {
        self.add(4, operator, [left, right, 0])
    }

    pub fn shift(&mut self, pointer: u16, by: u16) -> u16 {
        self.add(5, 0, [pointer, by, 0])
    }

    /// Read of a variable.
    pub fn read_variable(&mut self, variable: u8) -> u16 {
        let place = self.variable(variable);
        self.read(place)
    }

    /// Address of a variable.
    pub fn address_of_variable(&mut self, variable: u8) -> u16 {
        let place = self.variable(variable);
        self.address(place)
    }

    /// The value of a variable shifted by a literal.
    pub fn shifted_variable(&mut self, variable: u8, by: i64) -> u16 {
        let pointer = self.read_variable(variable);
        let by = self.literal(by);
        self.shift(pointer, by)
    }

    /// A variable takes a literal.
    pub fn take_literal(&mut self, variable: u8, literal: i64) -> u16 {
        let place = self.variable(variable);
        let value = self.literal(literal);
        self.take(place, value)
    }

    /// A variable takes a new block of a literal size.
    pub fn new_in(&mut self, variable: u8, size: i64) -> u16 {
        let place = self.variable(variable);
        let size = self.literal(size);
        self.take_new(place, size)
    }

    /// Free of what a variable points to.
    pub fn free_variable(&mut self, variable: u8) -> u16 {
        let pointer = self.read_variable(variable);
        self.free(pointer)
    }

    /// let 1 in (1 = new 2; free 1; the rest), where variable 1 points to a dead block.
    pub fn with_dead_block(&mut self, build: impl FnOnce(&mut Builder) -> u16) -> u16 {
        let new = self.new_in(1, 2);
        let free = self.free_variable(1);
        let rest = build(self);
        let body = self.sequence(&[new, free, rest]);
        self.let_in(1, body);
        rest
    }

    /// Read of what a variable points to.
    pub fn read_pointed(&mut self, variable: u8) -> u16 {
        let pointer = self.read_variable(variable);
        let place = self.pointed(pointer);
        self.read(place)
    }

    pub fn term(&mut self, expression: u16) -> u16 {
        self.add(20, 0, [expression, 0, 0])
    }

    pub fn literal_term(&mut self, literal: i64) -> u16 {
        let expression = self.literal(literal);
        self.term(expression)
    }

    /// The term of a variable's value.
    pub fn variable_term(&mut self, variable: u8) -> u16 {
        let expression = self.read_variable(variable);
        self.term(expression)
    }

    /// The term of a variable's address.
    pub fn address_term(&mut self, variable: u8) -> u16 {
        let expression = self.address_of_variable(variable);
        self.term(expression)
    }

    pub fn base(&mut self, term: u16) -> u16 {
        self.add(21, 0, [term, 0, 0])
    }

    pub fn offset(&mut self, term: u16) -> u16 {
        self.add(22, 0, [term, 0, 0])
    }

    pub fn length(&mut self, term: u16) -> u16 {
        self.add(23, 0, [term, 0, 0])
    }

    pub fn term_operator(&mut self, operator: u8, left: u16, right: u16) -> u16 {
        self.add(24, operator, [left, right, 0])
    }

    pub fn valid(&mut self, term: u16) -> u16 {
        self.add(30, 0, [term, 0, 0])
    }

    pub fn initialised(&mut self, term: u16) -> u16 {
        self.add(31, 0, [term, 0, 0])
    }

    pub fn compare(&mut self, operator: u8, left: u16, right: u16) -> u16 {
        self.add(32, operator, [left, right, 0])
    }

    /// Literal compared with literal: a predicate whose truth is known.
    pub fn compare_literals(&mut self, operator: u8, left: i64, right: i64) -> u16 {
        let left = self.literal_term(left);
        let right = self.literal_term(right);
        self.compare(operator, left, right)
    }

    pub fn not(&mut self, predicate: u16) -> u16 {
        self.add(33, 0, [predicate, 0, 0])
    }

    pub fn and(&mut self, left: u16, right: u16) -> u16 {
        self.add(34, 0, [left, right, 0])
    }

    pub fn or(&mut self, left: u16, right: u16) -> u16 {
        self.add(35, 0, [left, right, 0])
    }

    pub fn skip(&mut self) -> u16 {
        self.add(40, 0, [0; 3])
    }

    pub fn take(&mut self, place: u16, expression: u16) -> u16 {
        self.add(41, 0, [place, expression, 0])
    }

    pub fn take_new(&mut self, place: u16, size: u16) -> u16 {
        self.add(42, 0, [place, size, 0])
    }

    pub fn free(&mut self, expression: u16) -> u16 {
        self.add(43, 0, [expression, 0, 0])
    }

    pub fn then(&mut self, first: u16, second: u16) -> u16 {
        self.add(44, 0, [first, second, 0])
    }

    pub fn if_else(&mut self, condition: u16, then: u16, otherwise: u16) -> u16 {
        self.add(45, 0, [condition, then, otherwise])
    }

    pub fn while_do(&mut self, condition: u16, body: u16) -> u16 {
        self.add(46, 0, [condition, body, 0])
    }

    pub fn let_in(&mut self, variable: u8, body: u16) -> u16 {
        self.add(47, variable, [body, 0, 0])
    }

    pub fn assert(&mut self, predicate: u16) -> u16 {
        self.add(48, 0, [predicate, 0, 0])
    }

    /// Statements one after another, nested to the right; no statement at all is a skip.
    pub fn sequence(&mut self, statements: &[u16]) -> u16 {
        match statements.split_last() {
            None => self.skip(),
            Some((last, earlier)) => earlier
                .iter()
                .rev()
                .fold(*last, |rest, &part| self.then(part, rest)),
        }
    }
}
