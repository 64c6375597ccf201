//! Faults at new blocks: 40, 45, 31, 30, then the store.

use crate::programs::{both, ends};
use reference::builder::Builder;
use reference::host::{block, inputs, translated, watched};
use reference::limits::NAMES;
use reference::Answer;

/// Names from 3 on are given until so many are left; then comes the rest.
fn with_names_left(b: &mut Builder, left: usize, rest: impl FnOnce(&mut Builder) -> u16) -> u16 {
    let given = b.give_names(NAMES - 2 - left);
    let statement = rest(b);
    b.then(given, b.len() as u16);
    statement
}

#[test]
fn at_a_new_block_the_order_is_40_45_31_30() {
    let new = |size: Option<i64>| {
        move |b: &mut Builder| {
            let place = b.variable(0);
            let size = match size {
                Some(size) => b.literal(size),
                None => b.address_of_variable(0),
            };
            b.take_new(place, size)
        }
    };
    for (size, expected) in [(None, 40), (Some(0), 45), (Some(5000), 31), (Some(1), 31)] {
        ends(expected, |b| with_names_left(b, 0, new(size)));
    }
    ends(30, |b| with_names_left(b, 1, new(Some(5000))));
    ends(0, |b| {
        with_names_left(b, 1, new(Some(1)));
        0
    });
}

#[test]
fn a_let_without_a_name_or_a_cell_names_the_let_with_31_before_30() {
    // Variable 0, two inputs and 1,021 cells make 1,024.
    let full = |b: &mut Builder| {
        let new = b.new_in(0, 1021);
        let skip = b.skip();
        let block = b.let_in(9, skip);
        b.then(new, block);
        block
    };
    ends(30, |b| with_names_left(b, 2, full));
    ends(31, |b| with_names_left(b, 1, full));
}

/// A new block of 6 cells for what a variable points to, shifted.
fn new_at(b: &mut Builder, variable: u8, offset: i64) -> u16 {
    let pointer = b.shifted_variable(variable, offset);
    let place = b.pointed(pointer);
    let size = b.literal(6);
    b.take_new(place, size)
}

/// The new block stands in the execution memory from this cell on, and the observation memory does not know it.
fn stays(b: &Builder, expected: Answer, name: usize, first: u8) {
    let (answer, memory) = both(b, 4);
    assert_eq!(answer, expected);
    assert_eq!(block(&memory, name), [2, 0, first, 0, 6, 0, 0, 0]);
    let target = translated(&b.table()).expect("accepted");
    let (_, _, observation) = watched(&target, &inputs(&[7, 9]), 4);
    assert_eq!(block(&observation, name), [0; 8]);
}

#[test]
fn a_new_block_whose_store_ends_42_or_50_stays() {
    for offset in [-1, 2] {
        let mut b = Builder::source();
        let new = new_at(&mut b, 0, offset);
        stays(&b, Answer::ending(50, u32::from(new), 4, 1015), 3, 3);
    }
    for offset in [-1, 0, 2] {
        let mut b = Builder::source();
        let new = b.with_dead_block(|b| new_at(b, 1, offset));
        stays(&b, Answer::ending(42, u32::from(new), 4, 1014), 5, 4);
    }
}
