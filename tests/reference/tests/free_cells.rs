//! 02 §3, "Free cells counted as they go": exact figures by hand, and on seeded programs the running value beside a
//! count of the cells after every step.

use reference::builder::Builder;
use reference::generator::Generator;
use reference::host::{self, inputs, translated};
use reference::limits::NAMES;
use reference::machine::{Onlooker, Step};
use reference::memory::{Block, Memory, State};
use reference::{plain, watched, Answer};
use std::collections::BTreeMap;

/// How both runs of a program on 3 inputs end, and the free cells that they report.
fn ending(build: impl FnOnce(&mut Builder) -> u16) -> (u32, u32) {
    let mut b = Builder::source();
    build(&mut b);
    let (answer, memory) = host::both(&b.table(), &inputs(&[7, 9, 11]), 300);
    assert_eq!(host::free_cells(&memory), answer.free_cells);
    (answer.number, answer.free_cells)
}

fn new_and_free(b: &mut Builder) -> u16 {
    let new = b.new_in(0, 5);
    let free = b.free_variable(0);
    b.then(new, free)
}

fn false_assertion(b: &mut Builder) -> u16 {
    let falsehood = b.compare_literals(7, 0, 1);
    b.assert(falsehood)
}

/// let 1 in what is built.
fn within_let(build: impl FnOnce(&mut Builder) -> u16) -> impl FnOnce(&mut Builder) -> u16 {
    |b| {
        let body = build(b);
        b.let_in(1, body)
    }
}

/// while 1 do what is built.
fn for_ever(build: impl FnOnce(&mut Builder) -> u16) -> impl FnOnce(&mut Builder) -> u16 {
    |b| {
        let one = b.literal(1);
        let body = build(b);
        b.while_do(one, body)
    }
}

/// All names but 100 are given and ended before what is built.
fn nearly_out(build: impl FnOnce(&mut Builder) -> u16) -> impl FnOnce(&mut Builder) -> u16 {
    |b| {
        let given = b.give_names(NAMES - 2 - 100);
        let rest = build(b);
        b.then(given, rest)
    }
}

/// What a variable points to, shifted, takes a new block of 5 cells.
fn new_through(b: &mut Builder, variable: u8, offset: i64) -> u16 {
    let pointer = b.shifted_variable(variable, offset);
    let place = b.pointed(pointer);
    let size = b.literal(5);
    b.take_new(place, size)
}

#[test]
fn it_starts_at_1024_less_1_less_the_inputs() {
    let mut b = Builder::source();
    b.skip();
    for (count, free) in [(1, 1022), (3, 1020), (256, 767)] {
        let (answer, _) = host::both(&b.table(), &inputs(&vec![7; count]), 0);
        assert_eq!(answer, Answer::ending(0, 0, 0, free));
    }
}

#[test]
fn a_new_block_takes_its_cells_and_a_free_gives_them_back() {
    assert_eq!(ending(|b| b.new_in(0, 5)), (0, 1015));
    assert_eq!(ending(new_and_free), (0, 1020));
    assert_eq!(ending(|b| b.free_variable(0)), (46, 1020));
}

#[test]
fn a_let_takes_one_cell_and_its_end_gives_it_back_but_a_stop_does_not() {
    assert_eq!(ending(within_let(Builder::skip)), (0, 1020));
    assert_eq!(ending(within_let(|b| b.new_in(1, 5))), (0, 1015));
    assert_eq!(ending(within_let(false_assertion)), (33, 1019));
    let two_lets = within_let(|b| {
        let body = false_assertion(b);
        b.let_in(2, body)
    });
    assert_eq!(ending(two_lets), (33, 1018));
}

#[test]
fn a_block_that_is_not_made_takes_nothing() {
    assert_eq!(ending(|b| b.new_in(0, 0)), (45, 1020));
    assert_eq!(ending(|b| b.new_in(0, 1020)), (0, 0));
    assert_eq!(ending(|b| b.new_in(0, 1021)), (30, 1020));
    let let_after_all_cells = |b: &mut Builder| {
        let new = b.new_in(0, 1020);
        let block = within_let(Builder::skip)(b);
        b.then(new, block)
    };
    assert_eq!(ending(let_after_all_cells), (30, 0));
    let blocks = for_ever(|b| b.new_in(0, 1));
    assert_eq!(ending(nearly_out(blocks)), (31, 1020 - 100));
    let lets = for_ever(within_let(Builder::skip));
    assert_eq!(ending(nearly_out(lets)), (31, 1020));
}

#[test]
fn a_new_block_whose_own_store_ends_42_or_50_has_taken_its_cells() {
    assert_eq!(ending(|b| new_through(b, 0, 3)), (50, 1015));
    let in_dead_block = |b: &mut Builder| b.with_dead_block(|b| new_through(b, 1, 0));
    assert_eq!(ending(in_dead_block), (42, 1014));
}

fn ended(kind: u8, stop: Option<u32>) -> Step {
    Step::Ended { kind, stop }
}

/// Each step of a plain run on 3 inputs with fuel 1, and the value after it.
fn steps(build: impl FnOnce(&mut Builder) -> u16) -> Vec<(Step, u32)> {
    let mut b = Builder::source();
    build(&mut b);
    let mut steps = Vec::new();
    let mut onlooker = |step, memory: &Memory| steps.push((step, memory.free_cells()));
    let run = plain::run_looked_on(&b.table(), &inputs(&[7, 9, 11]), 1, &mut onlooker);
    assert!(run.is_ok());
    steps
}

#[test]
fn it_is_adjusted_at_the_step_and_not_at_the_ending() {
    let expected = [
        (Step::LetEntered, 1019),
        (ended(42, None), 1014),
        (ended(43, None), 1019),
        (ended(44, None), 1019),
        (ended(47, None), 1020),
    ];
    assert_eq!(steps(within_let(new_and_free)), expected);
    let expected = [
        (Step::LetEntered, 1019),
        (Step::Turn, 1019),
        (ended(42, None), 1014),
        (ended(46, Some(32)), 1014),
        (ended(47, Some(32)), 1014),
    ];
    let turns = within_let(for_ever(|b| b.new_in(1, 5)));
    assert_eq!(steps(turns), expected);
}

#[derive(Debug, Clone, Copy, PartialEq, Eq, PartialOrd, Ord)]
enum Event {
    NewBlock,
    Freed,
    LetEntered,
    LetLeft,
    Turn,
    NewWithoutCells,
    NewWithoutNames,
    LetNotMade,
    NewStoredInDeadBlock,
    NewStoredOutside,
    StoppedInLet,
}
use Event::*;

/// Each must come, so that the looking shows something of it.
const EVENTS: usize = 11;

type Counts = BTreeMap<Event, u32>;

/// What the last step left, and what has come so far.
struct Looking<'counts> {
    free_cells: u32,
    names: usize,
    open_lets: usize,
    stopped: bool,
    counts: &'counts mut Counts,
}

impl<'counts> Looking<'counts> {
    fn at_start(inputs: &[u8], counts: &'counts mut Counts) -> Self {
        Looking {
            free_cells: 1024 - 1 - inputs.len() as u32 / 8,
            names: 2,
            open_lets: 0,
            stopped: false,
            counts,
        }
    }

    /// A stop is looked at in the statement where it is found; those around it do nothing more.
    fn event(&self, step: Step, memory: &Memory) -> Option<Event> {
        let made = memory.blocks().len() > self.names;
        match step {
            Step::LetEntered => Some(LetEntered),
            Step::Turn => Some(Turn),
            Step::Ended { .. } if self.stopped => None,
            Step::Ended { kind, stop } => match (kind, stop) {
                (42, None) => Some(NewBlock),
                (43, None) => Some(Freed),
                (47, None) => Some(LetLeft),
                (42, Some(30)) => Some(NewWithoutCells),
                (42, Some(31)) => Some(NewWithoutNames),
                (47, Some(_)) => Some(LetNotMade),
                (42, Some(42)) if made => Some(NewStoredInDeadBlock),
                (42, Some(50)) if made => Some(NewStoredOutside),
                _ => None,
            },
        }
    }

    fn look(&mut self, step: Step, memory: &Memory) {
        let free = memory.free_cells();
        assert_eq!(free, memory.count_free_cells(), "{step:?}");
        let event = self.event(step, memory);
        let change = i64::from(free) - i64::from(self.free_cells);
        assert!(changes(event, change, memory), "{event:?} {change}");
        self.free_cells = free;
        self.names = memory.blocks().len();
        self.open_lets += usize::from(event == Some(LetEntered));
        self.open_lets -= usize::from(event == Some(LetLeft));
        self.stopped |= matches!(step, Step::Ended { stop: Some(_), .. });
        self.count(event);
    }

    /// The answer has the last value, and the lets that a stop left open still hold their cells.
    fn look_at_ending(&mut self, answer: Answer, memory: &Memory) {
        assert_eq!(answer.free_cells, self.free_cells);
        let fixed = |block: &&Block| block.state == State::Fixed;
        let fixed = memory.blocks().iter().filter(fixed).count();
        assert_eq!(fixed, 2 + self.open_lets);
        self.count((self.open_lets > 0).then_some(StoppedInLet));
    }

    fn count(&mut self, event: Option<Event>) {
        if let Some(event) = event {
            *self.counts.entry(event).or_default() += 1;
        }
    }
}

/// Whether the event changes the value so; where nothing of it is said, nothing changes.
fn changes(event: Option<Event>, change: i64, memory: &Memory) -> bool {
    let newest = memory.blocks().last().map_or(0, |block| block.length);
    match event {
        Some(NewBlock | NewStoredInDeadBlock | NewStoredOutside) => change == -(newest as i64),
        Some(Freed) => change > 0,
        Some(LetEntered) => change == -1,
        Some(LetLeft) => change == 1,
        _ => change == 0,
    }
}

type Run = fn(&[u8], &[u8], u32, Onlooker) -> Result<(Answer, Memory), Answer>;

/// The answer of a run and the bytes it leaves, with the value looked at after every step.
fn looked_on(run: Run, case: (&[u8], &[u8], u32), counts: &mut Counts) -> (Answer, Vec<u8>) {
    let (table, inputs, fuel) = case;
    let mut looking = Looking::at_start(inputs, counts);
    let mut onlooker = |step, memory: &Memory| looking.look(step, memory);
    let (answer, memory) = run(table, inputs, fuel, &mut onlooker).expect("accepted");
    looking.look_at_ending(answer, &memory);
    let image = memory.image();
    assert_eq!(answer.free_cells, host::free_cells(&image));
    (answer, image)
}

#[test]
fn it_is_the_count_after_every_step_of_5000_programs_plain_and_watched() {
    let mut generator = Generator::new(61);
    let (mut in_plain, mut in_watched) = (Counts::new(), Counts::new());
    for _ in 0..5_000 {
        let source = generator.astray_source();
        let (inputs, fuel) = (generator.inputs(), generator.fuel_for(&source));
        let target = translated(&source).expect("accepted");
        let outcome = host::both(&source, &inputs, fuel);
        let case = (&source[..], &inputs[..], fuel);
        assert!(looked_on(plain::run_looked_on, case, &mut in_plain) == outcome);
        let case = (&target[..], &inputs[..], fuel);
        assert!(looked_on(watched::run_looked_on, case, &mut in_watched) == outcome);
    }
    assert_eq!(in_plain.len(), EVENTS, "{in_plain:?}");
    assert_eq!(in_plain, in_watched);
}

#[test]
fn it_is_the_count_after_every_step_of_20000_hand_made_targets() {
    let mut generator = Generator::new(62);
    let mut counts = Counts::new();
    for _ in 0..20_000 {
        let target = generator.astray_target();
        let (inputs, fuel) = (generator.inputs(), generator.fuel_for(&target));
        let (answer, memory, _) = host::watched(&target, &inputs, fuel);
        let case = (&target[..], &inputs[..], fuel);
        assert!(looked_on(watched::run_looked_on, case, &mut counts) == (answer, memory));
    }
    assert_eq!(counts.len(), EVENTS, "{counts:?}");
}
