//! The deepest tables and the longest loops, from threads with little stack.

use reference::builder::Builder;
use reference::host::{inputs, plain, translated, watched};
use reference::Answer;

/// Does the work on a thread with this much stack.
fn on_a_stack_of<T: Send>(bytes: usize, work: impl FnOnce() -> T + Send) -> T {
    std::thread::scope(|scope| {
        let thread = std::thread::Builder::new()
            .stack_size(bytes)
            .spawn_scoped(scope, work);
        thread.expect("a thread").join().expect("no overflow")
    })
}

#[test]
fn an_expression_chain_of_4095_records_runs() {
    let mut b = Builder::target(1);
    let mut place = b.variable(0);
    while b.len() < 4095 {
        let address = b.address(place);
        place = b.pointed(address);
    }
    b.add(60, 0, [place, 0, 0]);
    assert_eq!(b.len(), 4096);
    let (answer, _, _) = on_a_stack_of(1 << 20, || watched(&b.table(), &inputs(&[7]), 5));
    assert_eq!(answer, Answer::ending(0, 0, 5, 1022));
}

#[test]
fn statements_nested_4096_deep_run_and_stop() {
    let mut b = Builder::target(9);
    let mut statement = b.add(67, 3, [0; 3]);
    b.label = 8;
    while b.len() + 2 <= 4096 {
        let skip = b.skip();
        statement = b.then(skip, statement);
    }
    let (answer, _, _) = on_a_stack_of(1 << 20, || watched(&b.table(), &inputs(&[7]), 5));
    assert_eq!(answer, Answer::ending(49, 9, 5, 1022));
}

#[test]
fn the_deepest_source_is_translated_and_run() {
    let mut b = Builder::source();
    let mut place = b.variable(0);
    while b.len() + 3 < 256 {
        let address = b.address(place);
        place = b.pointed(address);
    }
    let value = b.literal(6);
    b.take(place, value);
    let source = b.table();
    let (end, target_end) = on_a_stack_of(1 << 20, || {
        let target = translated(&source).expect("accepted");
        (
            plain(&source, &inputs(&[7]), 0).0,
            watched(&target, &inputs(&[7]), 0).0,
        )
    });
    assert_eq!(end, Answer::ending(0, 0, 0, 1022));
    assert_eq!(target_end, end);
}

#[test]
fn a_long_loop_needs_no_more_stack_than_a_short_one() {
    let mut b = Builder::source();
    let one = b.literal(1);
    let skip = b.skip();
    let turns = b.while_do(one, skip);
    let source = b.table();
    let (answer, _) = on_a_stack_of(128 << 10, || plain(&source, &inputs(&[7]), 3_000_000));
    let expected = Answer::ending(32, u32::from(turns), 0, 1022);
    assert_eq!(answer, expected);
}
