//! The tables whose listings are stored in tests/listing, by name.

use crate::builder::Builder;

/// Source 10 | 2 A=1 | 20 A=2 | 30 A=3 | 48 A=4.
fn p1() -> Vec<u8> {
    let mut b = Builder::source();
    let term = b.variable_term(0);
    let valid = b.valid(term);
    b.assert(valid);
    b.table()
}

/// A table of one record that has nothing but a kind and a mark.
fn one(kind: u8, mark: u8) -> Vec<u8> {
    let mut b = Builder::source();
    b.add(kind, mark, [0; 3]);
    b.table()
}

/// Record 2, a read, names itself as its place.
fn child_not_smaller() -> Vec<u8> {
    let mut b = Builder::source();
    b.variable(0);
    b.read(2);
    b.table()
}

/// Two statements, of which neither is the other's child.
fn two_programs() -> Vec<u8> {
    let mut b = Builder::source();
    b.skip();
    b.skip();
    b.table()
}

/// Variable 1 takes a literal outside any let of it.
fn out_of_scope() -> Vec<u8> {
    let mut b = Builder::source();
    b.take_literal(1, 5);
    b.table()
}

/// Nested 'not' around a comparison at level 62: it and its second term name temporary 64.
fn too_deep() -> Vec<u8> {
    let mut b = Builder::source();
    let mut predicate = b.compare_literals(6, 1, 2);
    for _ in 0..62 {
        predicate = b.not(predicate);
    }
    b.assert(predicate);
    b.table()
}

/// Expressions of every kind with every operator, as the values that a variable takes.
fn every_expression(b: &mut Builder, variable: u8) -> Vec<u16> {
    let mut statements = vec![b.take_literal(variable, i64::MIN), b.take_literal(variable, i64::MAX)];
    for operator in 1..=7 {
        let place = b.variable(variable);
        let left = b.read_variable(variable);
        let right = b.literal(-i64::from(operator));
        let value = b.operator(operator, left, right);
        statements.push(b.take(place, value));
    }
    let pointer = b.shifted_variable(0, 1);
    let place = b.pointed(pointer);
    let value = b.address_of_variable(variable);
    statements.push(b.take(place, value));
    statements
}

/// Terms of every kind with every operator, compared with a literal.
fn every_term(b: &mut Builder) -> Vec<u16> {
    let mut predicates = Vec::new();
    for kind in 21..=23 {
        let pointer = b.variable_term(0);
        let term = b.add(kind, 0, [pointer, 0, 0]);
        let other = b.literal_term(10);
        predicates.push(b.compare(6 + kind % 2, term, other));
    }
    for operator in [1, 2, 3, 4, 5, 8] {
        let left = b.literal_term(7);
        let right = b.literal_term(-2);
        let term = b.term_operator(operator, left, right);
        let other = b.literal_term(1000);
        predicates.push(b.compare(6, term, other));
    }
    predicates
}

/// Predicates of every kind around those of the terms.
fn every_predicate(b: &mut Builder) -> u16 {
    let terms = every_term(b);
    let pointer = b.variable_term(0);
    let mut predicate = b.valid(pointer);
    let pointer = b.variable_term(0);
    let initialised = b.initialised(pointer);
    predicate = b.and(predicate, initialised);
    for (number, &term) in terms.iter().enumerate() {
        let term = b.not(term);
        predicate = if number % 2 == 0 {
            b.or(predicate, term)
        } else {
            b.and(predicate, term)
        };
    }
    predicate
}

/// Every kind of statement, predicate, term, expression and place.
fn every_kind() -> Vec<u8> {
    let mut b = Builder::source();
    let mut statements = every_expression(&mut b, 63);
    statements.push(b.new_in(63, 2));
    let predicate = every_predicate(&mut b);
    statements.push(b.assert(predicate));
    statements.push(b.free_variable(63));
    let condition = b.literal(1);
    let then = b.skip();
    let otherwise = b.skip();
    statements.push(b.if_else(condition, then, otherwise));
    let condition = b.literal(0);
    let body = b.skip();
    statements.push(b.while_do(condition, body));
    let body = b.sequence(&statements);
    b.let_in(63, body);
    b.table()
}

/// 256 records, the most there may be: skips, and a let around them.
fn most_records() -> Vec<u8> {
    let mut b = Builder::source();
    let skips: Vec<u16> = (0..128).map(|_| b.skip()).collect();
    let body = b.sequence(&skips);
    b.let_in(1, body);
    b.table()
}

/// Names and tables: the worked case, each refusal of a source table, every kind, and lengths at their limits.
pub fn tables() -> Vec<(&'static str, Vec<u8>)> {
    vec![
        ("p1", p1()),
        ("refused_1", vec![40; 17]),
        ("refused_2", vec![0; 257 * 16]),
        ("refused_3", one(62, 0)),
        ("refused_4", one(40, 1)),
        ("refused_5", child_not_smaller()),
        ("refused_6", two_programs()),
        ("refused_7", out_of_scope()),
        ("refused_8", too_deep()),
        ("every_kind", every_kind()),
        ("most_records", most_records()),
        ("no_input", Vec::new()),
        ("bytes_4112", p1().into_iter().cycle().take(4112).collect()),
        ("bytes_4113", p1().into_iter().cycle().take(4113).collect()),
    ]
}
