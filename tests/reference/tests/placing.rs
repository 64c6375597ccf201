//! "A block gets the lowest run of free cells that holds it; freed cells serve again."

use reference::builder::Builder;
use reference::generator::random::Random;
use reference::host::{block, both, inputs};
use reference::limits::lowest_run;

#[test]
fn the_lowest_run_is_the_first_start_whose_cells_are_all_free() {
    let mut random = Random::new(31);
    let mut found = 0;
    for _ in 0..3_000 {
        let free: Vec<bool> = (0..40).map(|_| random.chance(70)).collect();
        for length in 1..=12 {
            let all_free = |start: &usize| free[*start..start + length].iter().all(|&cell| cell);
            let expected = (0..=free.len() - length).find(all_free);
            assert_eq!(lowest_run(free.iter().copied(), length), expected);
            found += u32::from(expected.is_some());
        }
    }
    assert!(found > 10_000, "{found}");
}

#[test]
fn a_run_may_be_all_the_cells_and_no_more() {
    assert_eq!(lowest_run([true; 1024].into_iter(), 1024), Some(0));
    assert_eq!(lowest_run([true; 1024].into_iter(), 1025), None);
    assert_eq!(lowest_run([false; 1024].into_iter(), 1), None);
}

/// Variables 1 and 2 take blocks of 4 and 2 cells, the first is freed, and variable 3 takes
/// `size` cells; the first cell of that last block, when the run stops at a false assertion.
fn first_cell_of(size: i64) -> u16 {
    let mut b = Builder::source();
    let four = b.new_in(1, 4);
    let two = b.new_in(2, 2);
    let free = b.free_variable(1);
    let last = b.new_in(3, size);
    let falsehood = b.compare_literals(7, 0, 1);
    let assertion = b.assert(falsehood);
    let mut body = b.sequence(&[four, two, free, last, assertion]);
    for variable in 1..=3 {
        body = b.let_in(variable, body);
    }
    let (answer, memory) = both(&b.table(), &inputs(&[7, 9]), 0);
    assert_eq!(answer.number, 33);
    // Names 1 and 2 are the inputs', 3 to 5 the lets', 6 and 7 the first two blocks'.
    let block = block(&memory, 8);
    u16::from_le_bytes([block[2], block[3]])
}

#[test]
fn a_gap_that_fits_is_used_and_one_too_short_is_passed_over() {
    // Inputs and lets take cells 0 to 5, the freed gap is 6 to 9, the block of 2 is 10 and 11.
    assert_eq!([1, 3, 4, 5, 6].map(first_cell_of), [6, 6, 6, 12, 12]);
}
