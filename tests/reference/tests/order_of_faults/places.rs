//! Faults at places, at reads and stores, and at frees.

use crate::programs::{both, ends, zero_divisor};
use reference::builder::Builder;

#[test]
fn a_place_that_is_no_pointer_comes_before_any_b() {
    ends(40, |b| {
        let integer = b.literal(3);
        let place = b.pointed(integer);
        let value = zero_divisor(b);
        b.take(place, value)
    });
    ends(40, |b| {
        let integer = b.literal(3);
        let place = b.pointed(integer);
        let size = b.literal(0);
        b.take_new(place, size)
    });
}

#[test]
fn a_dead_or_outside_place_is_found_at_the_store_after_b() {
    for (far, value, expected) in [
        (0, None, 44),
        (0, Some(5), 42),
        (2, None, 44),
        (2, Some(5), 42),
    ] {
        ends(expected, |b| {
            b.with_dead_block(|b| {
                let pointer = b.shifted_variable(1, far);
                let place = b.pointed(pointer);
                let value = match value {
                    Some(value) => b.literal(value),
                    None => zero_divisor(b),
                };
                b.take(place, value)
            })
        });
    }
    for (offset, expected) in [(-1, 50), (0, 0), (1, 0), (2, 50)] {
        let mut b = Builder::source();
        let pointer = b.shifted_variable(0, offset);
        let place = b.pointed(pointer);
        let value = b.literal(5);
        b.take(place, value);
        assert_eq!(both(&b, 0).0.number, expected, "offset {offset}");
    }
}

#[test]
fn a_read_of_a_dead_block_is_42_and_its_address_asks_nothing() {
    ends(42, |b| {
        b.with_dead_block(|b| {
            let place = b.variable(0);
            let value = b.read_pointed(1);
            b.take(place, value)
        })
    });
    ends(0, |b| {
        b.with_dead_block(|b| {
            let place = b.variable(0);
            let pointer = b.read_variable(1);
            let pointed = b.pointed(pointer);
            let value = b.address(pointed);
            b.take(place, value)
        });
        0
    });
}

#[test]
fn a_free_takes_a_pointer_to_the_first_cell_of_a_live_freeable_block() {
    ends(40, |b| {
        let integer = b.literal(0);
        b.free(integer)
    });
    // Variable 0's own block, the inputs' block and a let's block are fixed.
    ends(46, |b| {
        let pointer = b.address_of_variable(0);
        b.free(pointer)
    });
    ends(46, |b| b.free_variable(0));
    ends(46, |b| {
        let pointer = b.address_of_variable(1);
        let free = b.free(pointer);
        b.let_in(1, free);
        free
    });
    ends(46, |b| b.with_dead_block(|b| b.free_variable(1)));
    for (offset, expected) in [(0, 0), (1, 46), (2, 46), (-1, 46)] {
        let mut b = Builder::source();
        let new = b.new_in(0, 2);
        let pointer = b.shifted_variable(0, offset);
        let free = b.free(pointer);
        b.then(new, free);
        assert_eq!(both(&b, 0).0.number, expected, "offset {offset}");
    }
}
