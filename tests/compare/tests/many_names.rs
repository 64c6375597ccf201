//! Compiled runs of programs that give more names than a byte holds answer and leave the memories as those of the second
//! implementation do.

use compare::agree::{self, Left};
use compare::lent::GUARDED;
use compare::{library, numbers, unrefused};
use reference::answer::PLAIN_ENDINGS;
use reference::builder::Builder;
use reference::generator::{Case, Generator};
use reference::high_names::{self, Counts, Shown};
use reference::host::{inputs, translated};
use reference::limits::{EXECUTION_BYTES, OBSERVATION_BYTES};
use reference::Answer;
use std::collections::{BTreeMap, BTreeSet};
use std::fmt::Arguments;

type Agree = fn(&Case, usize, Arguments) -> Left;

/// How often each ending came, and what the memories showed.
#[derive(Debug, Default)]
struct Reached {
    endings: BTreeMap<u32, u32>,
    shown: Counts,
}

impl Reached {
    fn add(&mut self, left: &Left) {
        *self.endings.entry(left.number).or_default() += 1;
        high_names::count(&left.memory, &mut self.shown);
        if !left.observation.is_empty() {
            high_names::count_recorded(&left.observation, &mut self.shown);
        }
    }

    /// In so many runs at least, by parts of a thousand of all runs.
    fn assert_reached(&self, cases: u64, endings: &[(u32, u64)], shown: &[(Shown, u64)]) {
        let enough = |came: Option<&u32>, of_1000: u64| {
            u64::from(came.copied().unwrap_or(0)) * 1_000 >= of_1000 * cases
        };
        for (number, of_1000) in endings {
            assert!(
                enough(self.endings.get(number), *of_1000),
                "{number}: {self:?}"
            );
        }
        for (shown, of_1000) in shown {
            assert!(
                enough(self.shown.get(shown), *of_1000),
                "{shown:?}: {self:?}"
            );
        }
    }
}

/// Of a thousand runs.
const ENDINGS: [(u32, u64); 6] = [(0, 200), (30, 2), (31, 1), (32, 50), (33, 5), (47, 10)];
const SHOWN: [(Shown, u64); 7] = [
    (Shown::NameAboveByte, 500),
    (Shown::NameAbove4000, 1),
    (Shown::EveryName, 1),
    (Shown::OwnerAboveByte, 100),
    (Shown::PointerAboveByte, 100),
    (Shown::UsedPointerAboveByte, 10),
    (Shown::Twins, 50),
];

/// The endings that came.
fn compare(seed: u64, cases: u64, make: fn(&mut Generator) -> Vec<u8>, run: Agree) -> Reached {
    let mut reached = Reached::default();
    numbers(seed, cases, |generator, what| {
        let case = unrefused(make(generator), generator);
        let left = run(&case, GUARDED, what);
        reached.add(&left);
        [left.number]
    });
    reached.assert_reached(cases, &ENDINGS, &SHOWN);
    reached
}

fn numbers_of(reached: &Reached) -> BTreeSet<u32> {
    reached.endings.keys().copied().collect()
}

#[test]
fn plain_runs() {
    let make = Generator::many_names_source;
    let reached = compare(91, 200_000, make, agree::plain_left);
    assert_eq!(numbers_of(&reached), BTreeSet::from(PLAIN_ENDINGS));
}

#[test]
fn watched_runs_of_translations() {
    let make = |generator: &mut Generator| {
        let source = generator.many_names_source();
        translated(&source).expect("accepted")
    };
    let reached = compare(92, 100_000, make, agree::watched_left);
    assert_eq!(numbers_of(&reached), BTreeSet::from(PLAIN_ENDINGS));
    reached.assert_reached(100_000, &[], &[(Shown::RecordedAboveByte, 500)]);
}

#[test]
fn watched_runs_of_hand_made_targets() {
    let make = Generator::many_names_target;
    let reached = compare(93, 100_000, make, agree::watched_left);
    let endings: BTreeSet<u32> = PLAIN_ENDINGS.into_iter().chain([48, 49]).collect();
    assert_eq!(numbers_of(&reached), endings);
    reached.assert_reached(100_000, &[], &[(Shown::RecordedAboveByte, 200)]);
}

/// One short, one long, none, each other's, and those that the memories had with 255 names.
#[test]
fn memories_of_other_lengths_are_refused() {
    let lengths = |right: usize, other: usize, old: usize| [right - 1, right + 1, 0, other, old];
    let executions = lengths(EXECUTION_BYTES, OBSERVATION_BYTES, 18_424);
    let observations = lengths(OBSERVATION_BYTES, EXECUTION_BYTES, 3_064);
    let found = numbers(94, 300, |generator, what| {
        let mut case = unrefused(generator.many_names_source(), generator);
        let target = translated(&case.table).expect("accepted");
        let at = generator.random.index(executions.len());
        case.observation = generator.random.bytes(observations[at]);
        let plain = agree::run_plain(&case, GUARDED, what);
        assert!(plain == 0 || plain >= 30, "{what}: {plain}");
        case.table = target;
        let watched = agree::run_watched(&case, GUARDED, what);
        assert_eq!(watched, 22, "{what}");
        case.memory = generator.random.bytes(executions[at]);
        assert_eq!(agree::run_watched(&case, GUARDED, what), 21, "{what}");
        case.table = generator.many_names_source();
        assert_eq!(agree::run_plain(&case, GUARDED, what), 21, "{what}");
        [21, 22]
    });
    assert_eq!(found, BTreeSet::from([21, 22]));
}

/// R1: while 1 do let p in skip.
#[test]
fn r1_ends_as_on_paper() {
    let mut b = Builder::source();
    let one = b.literal(1);
    let skip = b.skip();
    let block = b.let_in(1, skip);
    let turns = b.while_do(one, block);
    let source = b.table();
    let target = translated(&source).expect("accepted");
    for (fuel, number, statement, left) in [
        (0, 32, turns, 0),
        (300, 32, turns, 0),
        (4_093, 32, turns, 0),
        (4_094, 31, block, 0),
        (5_000, 31, block, 906),
    ] {
        let expected = Answer::ending(number, statement.into(), left, 1021);
        let given = inputs(&[7, 9]);
        let (mut plain, mut watched) = (vec![1; EXECUTION_BYTES], vec![2; EXECUTION_BYTES]);
        let mut observation = vec![3; OBSERVATION_BYTES];
        let answer = library::run_plain(&source, &given, fuel, &mut plain);
        assert_eq!(answer, expected);
        let answer = library::run_watched(&target, &given, fuel, &mut watched, &mut observation);
        assert_eq!(answer, expected);
        assert!(plain == watched, "fuel {fuel}: the memories part");
    }
}
