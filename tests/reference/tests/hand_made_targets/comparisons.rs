//! Comparing pointers: kind 63 asks the observation memory, an expression the execution memory.

use crate::target::{ends, number, Target, HERE};

/// What the observation memory has of a block.
#[derive(Debug, Clone, Copy, PartialEq)]
enum Recorded {
    Never,
    Live,
    Deleted,
}

/// A block of 2 cells, as each memory has it.
#[derive(Debug, Clone, Copy, PartialEq)]
struct Block {
    recorded: Recorded,
    freed: bool,
}

fn every_block() -> impl Iterator<Item = Block> {
    let recorded = [Recorded::Never, Recorded::Live, Recorded::Deleted];
    let blocks = recorded.map(|recorded| [false, true].map(|freed| Block { recorded, freed }));
    blocks.into_iter().flatten()
}

/// The temporary takes a pointer to such a block; the next one is used up.
fn make(t: &mut Target, temporary: u8, block: Block) {
    t.new_block(temporary, 2);
    if block.recorded != Recorded::Never {
        t.integer(temporary + 1, 2).statement(68, temporary, 0);
    }
    if block.recorded == Recorded::Deleted {
        t.statement(69, temporary, 0);
    }
    if block.freed {
        let free = t.b.free_variable(0);
        t.parts.push(free);
    }
}

/// t0 takes t1 = t2, of kind 63.
fn compare_temporaries(t: &mut Target) {
    t.here(63, 0, 7);
}

/// t0 takes t1 = t2, of kind 4.
fn compare_in_expression(t: &mut Target) {
    t.b.label = HERE;
    let [left, right] = [1, 2].map(|temporary| {
        let place = t.b.add(12, temporary, [0; 3]);
        t.b.address(place)
    });
    let equal = t.b.operator(7, left, right);
    t.parts.push(t.b.add(61, 0, [equal, 0, 0]));
    t.b.label = 1;
}

/// How assert t0 ends after a comparison of two blocks.
fn of_two(left: Block, right: Block, compare: fn(&mut Target)) -> u32 {
    number(|t| {
        make(t, 1, left);
        make(t, 2, right);
        compare(t);
        t.here(67, 0, 0);
    })
}

/// The same of one block with itself, the left pointer shifted.
fn with_itself(block: Block, by: i64, compare: fn(&mut Target)) -> u32 {
    number(|t| {
        make(t, 2, block);
        t.integer(3, by).statement(63, 1, 8);
        compare(t);
        t.here(67, 0, 0);
    })
}

#[test]
fn kind_63_asks_the_observation_memory_alone() {
    for left in every_block() {
        for right in every_block() {
            let live = [left, right].map(|block| block.recorded == Recorded::Live);
            let expected = if live == [true; 2] { 33 } else { 47 };
            let ended = of_two(left, right, compare_temporaries);
            assert_eq!(ended, expected, "{left:?} {right:?}");
        }
        let [equal, unequal] = [0, 1].map(|by| with_itself(left, by, compare_temporaries));
        let live = left.recorded == Recorded::Live;
        let expected = if live { [0, 33] } else { [47; 2] };
        assert_eq!([equal, unequal], expected, "{left:?}");
    }
}

#[test]
fn an_expression_of_a_target_asks_the_execution_memory_alone() {
    for left in every_block() {
        for right in every_block() {
            let expected = if left.freed || right.freed { 47 } else { 33 };
            let ended = of_two(left, right, compare_in_expression);
            assert_eq!(ended, expected, "{left:?} {right:?}");
        }
        let [equal, unequal] = [0, 1].map(|by| with_itself(left, by, compare_in_expression));
        let expected = if left.freed { [47; 2] } else { [0, 33] };
        assert_eq!([equal, unequal], expected, "{left:?}");
    }
}

#[test]
fn a_block_never_recorded_ends_63_with_47_though_it_is_live() {
    ends(47, |t| t.new_block(1, 3).inputs(2, 0).here(63, 0, 7).end());
    ends(47, |t| {
        t.inputs(1, 0).new_block(2, 3).here(63, 0, 7).end();
    });
    ends(0, |t| {
        t.new_block(1, 3).inputs(2, 0);
        compare_in_expression(t);
    });
}

#[test]
fn comparing_temporaries_goes_49_40_47() {
    ends(49, |t| t.dead_block(1, 0).here(63, 0, 7).end());
    ends(49, |t| t.dead_block(2, 0).here(63, 0, 7).end());
    ends(40, |t| {
        t.dead_block(1, 0).integer(2, 0).here(63, 0, 7).end()
    });
    ends(40, |t| {
        t.integer(1, 0).dead_block(2, 0).here(63, 0, 7).end()
    });
    ends(47, |t| {
        t.dead_block(1, 0).dead_block(2, 0).here(63, 0, 7).end()
    });
}

/// Only operator 7 asks for live blocks: of two pointers the others are 40, and a shift takes any.
#[test]
fn no_other_operator_asks_for_live_blocks() {
    for operator in 1..=6 {
        ends(40, |t| {
            t.dead_block(1, 0)
                .dead_block(2, 0)
                .here(63, 0, operator)
                .end()
        });
    }
    ends(0, |t| t.dead_block(1, 0).integer(2, 9).here(63, 0, 8).end());
    ends(43, |t| {
        t.dead_block(1, i64::MAX).integer(2, 9).here(63, 0, 8).end()
    });
}
