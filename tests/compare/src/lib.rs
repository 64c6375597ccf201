//! The compiled library, and a function of the C host, beside the second implementation.

pub mod agree;
pub mod host;
pub mod lent;
pub mod library;

use reference::generator::{Case, Generator};
use std::collections::BTreeSet;
use std::fmt::Arguments;

/// The table with inputs, fuel and memories that are not refused.
pub fn unrefused(table: Vec<u8>, generator: &mut Generator) -> Case {
    Case {
        fuel: generator.fuel_for(&table),
        table,
        inputs: generator.inputs(),
        memory: generator.memory(),
        observation: generator.observation(),
    }
}

/// Compares on seeded cases and returns the numbers that came.
pub fn numbers<Found>(
    seed: u64,
    cases: u64,
    mut compare: impl FnMut(&mut Generator, Arguments) -> Found,
) -> BTreeSet<u32>
where
    Found: IntoIterator<Item = u32>,
{
    let mut generator = Generator::new(seed);
    let mut found = BTreeSet::new();
    for case in 0..cases {
        found.extend(compare(
            &mut generator,
            format_args!("seed {seed}, case {case}"),
        ));
    }
    found
}
