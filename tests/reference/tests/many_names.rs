//! 02 §5, "More block names than a byte holds": every name given, names that a byte would not tell apart, and on seeded
//! programs the owner and the zero parts of every cell.

use reference::builder::Builder;
use reference::generator::Generator;
use reference::high_names::{self, count_recorded, names_given, Counts, Shown};
use reference::host::{self, block, cell, inputs, watched};
use reference::limits::{BLOCKS_BYTES, BLOCK_BYTES, CELLS};
use reference::machine::Step;
use reference::memory::{Memory, State};
use reference::{plain, Answer};

/// while 1 do what is built, with the statement that gives a name each turn.
fn for_ever(build: fn(&mut Builder) -> (u16, u16)) -> (Vec<u8>, u32) {
    let mut b = Builder::source();
    let one = b.literal(1);
    let (body, naming) = build(&mut b);
    b.while_do(one, body);
    (b.table(), u32::from(naming))
}

fn let_of_skip(b: &mut Builder) -> (u16, u16) {
    let skip = b.skip();
    let block = b.let_in(1, skip);
    (block, block)
}

fn new_and_free(b: &mut Builder) -> (u16, u16) {
    let new = b.new_in(0, 5);
    let free = b.free_variable(0);
    (b.then(new, free), new)
}

#[test]
fn names_1_to_4095_are_all_given_and_the_next_ends_31() {
    for (source, naming) in [for_ever(let_of_skip), for_ever(new_and_free)] {
        let (answer, memory) = host::both(&source, &inputs(&[7, 9]), 5_000);
        assert_eq!(answer, Answer::ending(31, naming, 906, 1021));
        let states: Vec<u8> = (1..=4_095).map(|name| block(&memory, name)[0]).collect();
        assert_eq!(states[..2], [1, 1]);
        assert!(states[2..].iter().all(|&state| state == 3));
        let (answer, memory) = host::both(&source, &inputs(&[7, 9]), 4_092);
        assert_eq!((answer.number, answer.fuel), (32, 0));
        assert_eq!(names_given(&memory), 4_094);
    }
}

#[test]
fn names_rise_by_one_and_none_comes_again() {
    let (source, _) = for_ever(let_of_skip);
    let mut given = Vec::new();
    let mut onlooker = |step, memory: &Memory| {
        if step == Step::LetEntered {
            let live = memory.blocks().iter().filter(|b| b.state != State::Dead);
            assert_eq!(live.count(), 3);
            given.push(memory.cells()[3].expect("the let's cell").owner);
        }
    };
    let run = plain::run_looked_on(&source, &inputs(&[7, 9]), 5_000, &mut onlooker);
    assert!(run.is_ok());
    assert!(given.into_iter().eq(3..=4_095));
}

/// What is built in the scope of variables 1 and 2, which hold blocks of 2 and 3 cells named 5 and 261, ends so; a stop
/// names the statement that is told.
fn with_twins(number: u32, build: impl FnOnce(&mut Builder) -> u16) {
    let mut b = Builder::source();
    let first = b.new_in(1, 2);
    let given = b.give_names(255);
    let second = b.new_in(2, 3);
    let statement = build(&mut b);
    let last = b.len() as u16;
    let body = b.sequence(&[first, given, second, last]);
    let inner = b.let_in(2, body);
    b.let_in(1, inner);
    let (answer, _) = host::both(&b.table(), &inputs(&[7, 9]), 100);
    let record = if number == 0 { 0 } else { u32::from(statement) };
    assert_eq!((answer.number, answer.record), (number, record));
}

fn store_through(b: &mut Builder, variable: u8, literal: i64) -> u16 {
    let pointer = b.read_variable(variable);
    let place = b.pointed(pointer);
    let value = b.literal(literal);
    b.take(place, value)
}

/// Asserts that variable 1 points to the twin that was stored 10, of 2 cells, and that 1 and 2 differ.
fn told_apart(b: &mut Builder) -> u16 {
    let ten = store_through(b, 1, 10);
    let twenty = store_through(b, 2, 20);
    let (first, second) = (b.variable_term(1), b.variable_term(2));
    let equal = b.compare(7, first, second);
    let differ = b.not(equal);
    let read = b.read_pointed(1);
    let (value, stored) = (b.term(read), b.literal_term(10));
    let kept = b.compare(7, value, stored);
    let term = b.variable_term(1);
    let (length, two) = (b.length(term), b.literal_term(2));
    let long = b.compare(7, length, two);
    let both = b.and(differ, kept);
    let all = b.and(both, long);
    let assertion = b.assert(all);
    b.sequence(&[ten, twenty, assertion])
}

#[test]
fn names_with_equal_low_bytes_are_told_apart() {
    with_twins(0, told_apart);
}

/// One is freed; then comes the rest.
fn after_free(
    freed: u8,
    rest: impl FnOnce(&mut Builder) -> u16,
) -> impl FnOnce(&mut Builder) -> u16 {
    move |b| {
        let free = b.free_variable(freed);
        let statement = rest(b);
        b.then(free, b.len() as u16);
        statement
    }
}

#[test]
fn of_two_names_with_equal_low_bytes_one_ends_and_the_other_does_not() {
    for (freed, kept) in [(1, 2), (2, 1)] {
        let asked = after_free(freed, |b| {
            let (live, dead) = (b.variable_term(kept), b.variable_term(freed));
            let (live, dead) = (b.valid(live), b.valid(dead));
            let dead = b.not(dead);
            let both = b.and(live, dead);
            b.assert(both)
        });
        with_twins(0, asked);
        with_twins(0, after_free(freed, |b| store_through(b, kept, 1)));
        with_twins(42, after_free(freed, |b| store_through(b, freed, 1)));
        with_twins(0, after_free(freed, |b| b.free_variable(kept)));
        with_twins(46, after_free(freed, |b| b.free_variable(freed)));
        let compared = after_free(freed, |b| {
            let (left, right) = (b.read_variable(kept), b.read_variable(freed));
            let condition = b.operator(7, left, right);
            let (then, otherwise) = (b.skip(), b.skip());
            b.if_else(condition, then, otherwise)
        });
        with_twins(47, compared);
    }
}

/// The owner that each cell has by the block records, those of names never given being 0.
fn owners(memory: &[u8]) -> Vec<u16> {
    let mut owners = vec![0; CELLS];
    let given = names_given(memory);
    let never_given = &memory[given * BLOCK_BYTES..BLOCKS_BYTES];
    assert!(never_given.iter().all(|&byte| byte == 0));
    for name in 1..=given {
        let record = block(memory, name);
        assert_eq!([record[1], record[6], record[7]], [0; 3]);
        let two = |at| usize::from(u16::from_le_bytes([record[at], record[at + 1]]));
        let (first, length) = (two(2), two(4));
        assert_eq!(length > 0, matches!(record[0], 1 | 2));
        owners[first..first + length].fill(name as u16);
    }
    owners
}

/// Each cell has the owner that covers it, and 0 in bytes 1, 6 and 7 and in what its kind has no use for.
fn look_at_cells(memory: &[u8]) {
    for (at, owner) in owners(memory).into_iter().enumerate() {
        let cell = cell(memory, at);
        assert_eq!(cell[2..4], owner.to_le_bytes(), "cell {at}");
        assert_eq!([cell[1], cell[6], cell[7]], [0; 3], "cell {at}");
        assert_eq!(cell[0] == 0, owner == 0, "cell {at}");
        assert!(cell[0] == 3 || cell[4..6] == [0, 0], "cell {at}");
        assert!(cell[0] >= 2 || cell[8..] == [0; 8], "cell {at}");
    }
}

/// So many runs of each kind of program show it at least.
const LEAST: [(Shown, u32); 7] = [
    (Shown::NameAboveByte, 700),
    (Shown::NameAbove4000, 20),
    (Shown::EveryName, 10),
    (Shown::OwnerAboveByte, 300),
    (Shown::PointerAboveByte, 200),
    (Shown::UsedPointerAboveByte, 50),
    (Shown::Twins, 100),
];

fn assert_shown(counts: &Counts, least: &[(Shown, u32)]) {
    for (shown, times) in least {
        assert!(counts[shown] >= *times, "{shown:?}: {counts:?}");
    }
}

/// One program in 20 goes on with the last names.
fn makes_last_names(case: u32) -> bool {
    case.is_multiple_of(20)
}

#[test]
fn owners_and_zero_parts_of_every_cell_on_1500_programs() {
    let mut generator = Generator::new(81);
    let (mut counts, mut no_names) = (Counts::new(), 0);
    for case in 0..1_500 {
        let source = match makes_last_names(case) {
            true => generator.last_names_source(),
            false => generator.many_names_source(),
        };
        let (inputs, fuel) = (generator.inputs(), generator.fuel_for(&source));
        // The watched run of the translation leaves the same bytes.
        let (answer, memory) = host::both(&source, &inputs, fuel);
        look_at_cells(&memory);
        high_names::count(&memory, &mut counts);
        no_names += u32::from(answer.number == 31);
    }
    assert_shown(&counts, &LEAST);
    assert!(no_names >= 10, "{no_names}");
}

#[test]
fn owners_and_zero_parts_of_every_cell_on_1500_hand_made_targets() {
    let mut generator = Generator::new(82);
    let mut counts = Counts::new();
    for case in 0..1_500 {
        let target = match makes_last_names(case) {
            true => generator.last_names_target(),
            false => generator.many_names_target(),
        };
        let (inputs, fuel) = (generator.inputs(), generator.fuel_for(&target));
        let (_, memory, observation) = watched(&target, &inputs, fuel);
        look_at_cells(&memory);
        high_names::count(&memory, &mut counts);
        count_recorded(&observation, &mut counts);
    }
    assert_shown(&counts, &LEAST);
    assert_shown(&counts, &[(Shown::RecordedAboveByte, 300)]);
}
