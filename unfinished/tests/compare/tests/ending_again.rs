//! How a run ended: the C host works the statement out again on the memory that the compiled run left, and comes to the
//! same number.

use compare::lent::GUARDED;
use compare::{agree, numbers, unrefused};
use reference::answer::PLAIN_ENDINGS;

const CASES: u64 = 100_000;

#[test]
fn a_statement_worked_out_again_comes_to_the_runs_ending() {
    let found = numbers(63, CASES, |generator, what| {
        let case = unrefused(generator.accepted_source(), generator);
        [agree::ending_again(&case, GUARDED, what)]
    });
    assert!(found.into_iter().eq(PLAIN_ENDINGS));
}
