//! Operator 5 through compiled runs, as kind 4, as kind 24 and as kind 63, at exact halves and at the ends of 64 bits.

use compare::lent::GUARDED;
use compare::{agree, numbers};
use reference::builder::{asserted_calculation, calculation};
use reference::generator::{Case, Generator};
use reference::host::{inputs, translated};
use reference::numbers::operate;
use std::collections::{BTreeMap, BTreeSet};
use std::fmt::Arguments;

const CASES: u64 = 100_000;

/// Both runs of a source on inputs 7, 9: they end alike.
fn run(source: Vec<u8>, generator: &mut Generator, what: Arguments) -> u32 {
    let target = translated(&source).expect("accepted");
    let mut case = Case {
        table: source,
        inputs: inputs(&[7, 9]),
        fuel: 0,
        memory: generator.memory(),
        observation: generator.observation(),
    };
    let plain = agree::run_plain(&case, GUARDED, what);
    case.table = target;
    assert_eq!(agree::run_watched(&case, GUARDED, what), plain, "{what}");
    plain
}

/// Variable 0 takes the quotient; and it is asserted to be the second implementation's. Both end 0, or both 43 or 44.
fn divide(left: i64, right: i64, generator: &mut Generator, what: Arguments) -> u32 {
    let quotient = operate(5, left, right);
    let asserted = asserted_calculation(5, left, right, quotient.unwrap_or(0));
    let number = quotient.err().unwrap_or(0);
    for source in [calculation(5, left, right), asserted] {
        assert_eq!(run(source, generator, what), number, "{what}");
    }
    number
}

#[test]
fn all_pairs_of_the_ends_and_the_small_numbers() {
    let ends = [i64::MIN, i64::MIN + 1, 1 << 62, i64::MAX];
    let values: Vec<i64> = ends.into_iter().chain(-9..=9).collect();
    let mut generator = Generator::new(61);
    let mut came = BTreeMap::new();
    for &left in &values {
        for &right in &values {
            let what = format_args!("{left} by {right}");
            *came
                .entry(divide(left, right, &mut generator, what))
                .or_insert(0) += 1;
        }
    }
    assert_eq!(came, BTreeMap::from([(0, 505), (43, 1), (44, 23)]));
}

/// Where the exact quotient lies, told without dividing to nearest.
#[derive(Debug, PartialEq, Eq, PartialOrd, Ord)]
enum Quotient {
    Whole,
    BelowHalf,
    HalfOfEven,
    HalfOfOdd,
    AboveHalf,
}

fn quotient(left: i64, right: i64) -> Quotient {
    let (left, right) = (i128::from(left).abs(), i128::from(right).abs());
    let (whole, rest) = (left / right, left % right);
    match rest * 2 - right {
        _ if rest == 0 => Quotient::Whole,
        0 if whole % 2 == 0 => Quotient::HalfOfEven,
        0 => Quotient::HalfOfOdd,
        over if over < 0 => Quotient::BelowHalf,
        _ => Quotient::AboveHalf,
    }
}

#[test]
fn seeded_divisions_reach_every_kind_of_quotient_with_every_sign() {
    let mut reached: BTreeMap<_, u32> = BTreeMap::new();
    let found = numbers(62, CASES, |generator, what| {
        let (left, right) = generator.division();
        if right != 0 {
            let sort = (quotient(left, right), left < 0, right < 0);
            *reached.entry(sort).or_default() += 1;
        }
        [divide(left, right, generator, what)]
    });
    assert_eq!(reached.len(), 5 * 2 * 2, "{reached:?}");
    assert!(reached.values().all(|&times| times >= 100), "{reached:?}");
    assert!(found.is_subset(&BTreeSet::from([0, 43, 44])), "{found:?}");
}
