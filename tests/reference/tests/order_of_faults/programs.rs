//! Running and building the programs of these tests.

use reference::builder::Builder;
use reference::host::{self, inputs};
use reference::Answer;

/// Both runs on inputs 7, 9 with this fuel.
pub fn both(b: &Builder, fuel: u32) -> (Answer, Vec<u8>) {
    host::both(&b.table(), &inputs(&[7, 9]), fuel)
}

/// Builds a program, which tells the statement it should name, and expects its ending.
pub fn ends(number: u32, build: impl FnOnce(&mut Builder) -> u16) {
    let mut b = Builder::source();
    let statement = build(&mut b);
    let (answer, _) = both(&b, 1000);
    assert_eq!(
        (answer.number, answer.record),
        (number, u32::from(statement))
    );
}

/// Division of 1 by 0, which ends 44.
pub fn zero_divisor(b: &mut Builder) -> u16 {
    let one = b.literal(1);
    let zero = b.literal(0);
    b.operator(4, one, zero)
}

/// Addition that ends 43.
pub fn overflow(b: &mut Builder) -> u16 {
    let most = b.literal(i64::MAX);
    let one = b.literal(1);
    b.operator(1, most, one)
}

/// let 1 in (variable 0 takes the expression), where variable 1 is undefined.
pub fn with_expression(b: &mut Builder, build: impl FnOnce(&mut Builder) -> u16) -> u16 {
    let place = b.variable(0);
    let expression = build(b);
    let take = b.take(place, expression);
    b.let_in(1, take);
    take
}
