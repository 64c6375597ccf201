//! Record orders of an accepted table: "children have smaller numbers than their parent".

use super::random::Random;
use crate::grammar::child_numbers;
use crate::record::Record;

/// Another valid order of the same tree, drawn at random; the root stays last.
pub fn shuffled(records: &[Record], random: &mut Random) -> Vec<Record> {
    let parents = parents(records);
    let mut pending: Vec<usize> = records.iter().map(|r| child_numbers(r).count()).collect();
    let mut ready: Vec<usize> = (0..records.len()).filter(|&at| pending[at] == 0).collect();
    let mut order = Vec::with_capacity(records.len());
    while !ready.is_empty() {
        let at = ready.swap_remove(random.index(ready.len()));
        order.push(at);
        if let Some(parent) = parents[at] {
            pending[parent] -= 1;
            if pending[parent] == 0 {
                ready.push(parent);
            }
        }
    }
    renumbered(records, &order)
}

/// The child-first order: "A's records, B's, C's, then the parent".
pub fn child_first(records: &[Record]) -> Vec<Record> {
    renumbered(records, &child_first_order(records))
}

/// The old places in their child-first order, without recursion.
pub fn child_first_order(records: &[Record]) -> Vec<usize> {
    let mut order = Vec::with_capacity(records.len());
    let mut stack: Vec<usize> = records.len().checked_sub(1).into_iter().collect();
    // Parent, then C, B, A is the child-first order read backwards.
    while let Some(at) = stack.pop() {
        order.push(at);
        stack.extend(child_numbers(&records[at]).map(|child| usize::from(child) - 1));
    }
    order.reverse();
    order
}

fn parents(records: &[Record]) -> Vec<Option<usize>> {
    let mut parents = vec![None; records.len()];
    for (at, record) in records.iter().enumerate() {
        for child in child_numbers(record) {
            parents[usize::from(child) - 1] = Some(at);
        }
    }
    parents
}

/// The records at `order` one after another, their children renumbered to match.
pub fn renumbered(records: &[Record], order: &[usize]) -> Vec<Record> {
    let mut numbers = vec![0_u16; records.len() + 1];
    for (number, &at) in (1..).zip(order) {
        numbers[at + 1] = number;
    }
    let moved = |&at: &usize| with_children(records[at], |child| numbers[usize::from(child)]);
    order.iter().map(moved).collect()
}

/// The record with each child number replaced; other fields stay.
pub fn with_children(mut record: Record, change: impl Fn(u16) -> u16) -> Record {
    let sorts = crate::grammar::children(record.kind);
    let fields = [&mut record.a, &mut record.b, &mut record.c];
    for (field, sort) in fields.into_iter().zip(sorts) {
        if sort.is_some() {
            *field = change(*field);
        }
    }
    record
}
