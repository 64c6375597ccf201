//! 42 where a read or store is tried in a dead block, 50 where its offset is outside a live one: in program and
//! assertions, in plain and watched runs, by hand and on seeded programs.

use reference::answer::Answer;
use reference::builder::Builder;
use reference::generator::Generator;
use reference::host::{self, inputs, translated};
use reference::limits::BLOCK_BYTES;
use reference::value::Pointer;
use reference::{plain, watched};
use std::collections::BTreeMap;

/// A statement that uses the pointer of an expression.
type Use = fn(&mut Builder, u16) -> u16;

#[derive(Debug, Clone, Copy, PartialEq)]
enum Block {
    Live,
    Dead,
}
use Block::{Dead, Live};

/// Variable 0 takes what the pointer leads to.
fn read(b: &mut Builder, pointer: u16) -> u16 {
    let pointed = b.pointed(pointer);
    let value = b.read(pointed);
    let place = b.variable(0);
    b.take(place, value)
}

/// What the pointer leads to is a condition.
fn tested(b: &mut Builder, pointer: u16) -> u16 {
    let pointed = b.pointed(pointer);
    let condition = b.read(pointed);
    let (then, otherwise) = (b.skip(), b.skip());
    b.if_else(condition, then, otherwise)
}

fn stored(b: &mut Builder, pointer: u16) -> u16 {
    let place = b.pointed(pointer);
    let value = b.literal(8);
    b.take(place, value)
}

/// What the pointer leads to takes a new block.
fn stored_new(b: &mut Builder, pointer: u16) -> u16 {
    let place = b.pointed(pointer);
    let size = b.literal(3);
    b.take_new(place, size)
}

/// assert 1 at most what the pointer leads to.
fn asserted(b: &mut Builder, pointer: u16) -> u16 {
    let pointed = b.pointed(pointer);
    let value = b.read(pointed);
    let left = b.literal_term(1);
    let right = b.term(value);
    let predicate = b.compare(6, left, right);
    b.assert(predicate)
}

/// assert not (truth and 1 + what the pointer leads to equals 0).
fn asserted_within(b: &mut Builder, pointer: u16) -> u16 {
    let pointed = b.pointed(pointer);
    let value = b.read(pointed);
    let one = b.literal_term(1);
    let value = b.term(value);
    let sum = b.term_operator(1, one, value);
    let zero = b.literal_term(0);
    let equal = b.compare(7, sum, zero);
    let truth = b.compare_literals(6, 1, 2);
    let both = b.and(truth, equal);
    let predicate = b.not(both);
    b.assert(predicate)
}

const READS: [Use; 2] = [read, tested];
const STORES: [Use; 2] = [stored, stored_new];
const ASSERTED: [Use; 2] = [asserted, asserted_within];

fn every_use() -> impl Iterator<Item = Use> {
    READS.into_iter().chain(STORES).chain(ASSERTED)
}

/// let 1 in (1 = new 2; *1 = 8; *(1 + 1) = 8; free 1 where it is to be dead; the use of 1 + offset), and the use.
fn program(
    block: Block,
    offset: i64,
    used: impl FnOnce(&mut Builder, u16) -> u16,
) -> (Vec<u8>, u16) {
    let mut b = Builder::source();
    let mut parts = vec![b.new_in(1, 2)];
    for cell in 0..2 {
        let pointer = b.shifted_variable(1, cell);
        parts.push(stored(&mut b, pointer));
    }
    if block == Dead {
        parts.push(b.free_variable(1));
    }
    let pointer = b.shifted_variable(1, offset);
    let statement = used(&mut b, pointer);
    parts.push(statement);
    let body = b.sequence(&parts);
    b.let_in(1, body);
    (b.table(), statement)
}

/// How both runs of that end. They name the use, and where they end 42 or 50 it was with this pointer.
fn ending(block: Block, offset: i64, used: impl FnOnce(&mut Builder, u16) -> u16) -> u32 {
    let (source, statement) = program(block, offset, used);
    let (answer, _) = host::both(&source, &inputs(&[7, 9]), 0);
    assert!(answer.number == 0 || answer.record == u32::from(statement));
    let expected = answer.led_nowhere().then_some(Pointer { name: 4, offset });
    assert_eq!(used_by_both(&source, &inputs(&[7, 9]), 0), expected);
    answer.number
}

/// The pointer that both runs of a source remember.
fn used_by_both(source: &[u8], inputs: &[u8], fuel: u32) -> Option<Pointer> {
    let target = translated(source).expect("accepted");
    let used = plain::used_pointer(source, inputs, fuel);
    assert_eq!(watched::used_pointer(&target, inputs, fuel), used);
    used
}

/// Dead and live, inside and outside.
fn tell_dead_from_outside(uses: [Use; 2]) {
    for used in uses {
        assert_eq!([0, 1].map(|offset| ending(Dead, offset, used)), [42, 42]);
        assert_eq!([-1, 2].map(|offset| ending(Live, offset, used)), [50, 50]);
        assert_eq!([0, 1].map(|offset| ending(Live, offset, used)), [0, 0]);
    }
}

#[test]
fn reads_of_the_program_tell_dead_from_outside() {
    tell_dead_from_outside(READS);
}

#[test]
fn stores_tell_dead_from_outside() {
    tell_dead_from_outside(STORES);
}

#[test]
fn reads_in_assertions_tell_dead_from_outside() {
    tell_dead_from_outside(ASSERTED);
}

/// Far outside a block of 2 cells, on both sides, some of them inside where only low bits are looked at.
const FAR: [i64; 8] = [-1, -2, 2, 1024, 1 << 16, 1 << 32, i64::MAX, i64::MIN];

#[test]
fn a_dead_block_is_42_before_any_offset_is_50() {
    for used in every_use() {
        assert_eq!(FAR.map(|offset| ending(Dead, offset, used)), [42; 8]);
    }
}

#[test]
fn an_offset_below_0_or_from_the_length_on_is_50() {
    for used in every_use() {
        assert_eq!([0, 1].map(|offset| ending(Live, offset, used)), [0; 2]);
        assert_eq!(FAR.map(|offset| ending(Live, offset, used)), [50; 8]);
    }
}

/// Dead at every offset, live outside: where reads and stores end.
fn leading_nowhere() -> impl Iterator<Item = (Block, i64)> {
    let dead = FAR.into_iter().chain([0, 1]).map(|offset| (Dead, offset));
    dead.chain(FAR.map(|offset| (Live, offset)))
}

/// An assertion on a pointer that is true of a cell that holds something.
fn asking(b: &mut Builder, kind: u8, pointer: u16) -> u16 {
    let term = b.term(pointer);
    let asked = b.add(kind, 0, [term, 0, 0]);
    let predicate = match kind {
        21 => b.valid(asked),
        22 | 23 => {
            let most = b.literal_term(i64::MAX);
            b.compare(6, asked, most)
        }
        _ => asked,
    };
    b.assert(predicate)
}

#[test]
fn valid_and_initialised_are_0_there_and_end_nothing() {
    for kind in [30, 31] {
        let used = |b: &mut Builder, pointer| asking(b, kind, pointer);
        for (block, offset) in leading_nowhere() {
            assert_eq!(ending(block, offset, used), 33, "{block:?} {offset}");
        }
        assert_eq!([0, 1].map(|offset| ending(Live, offset, used)), [0; 2]);
    }
}

#[test]
fn a_free_there_stays_46() {
    for (block, offset) in leading_nowhere() {
        let number = ending(block, offset, Builder::free);
        assert_eq!(number, 46, "{block:?} {offset}");
    }
}

#[test]
fn base_offset_and_length_ask_for_a_live_block_alone() {
    for kind in [21, 22, 23] {
        for (block, offset) in leading_nowhere() {
            let expected = if block == Dead { 47 } else { 0 };
            let number = ending(block, offset, |b, pointer| asking(b, kind, pointer));
            assert_eq!(number, expected, "{kind} {block:?} {offset}");
        }
    }
}

/// The number of a watched run of t3 = the inputs' address, shifted; then the statement on t3.
fn on_t3(offset: i64, statement: fn(&mut Builder) -> u16) -> u32 {
    let mut b = Builder::target(1);
    let pointer = b.shifted_variable(0, offset);
    let taken = b.add(61, 3, [pointer, 0, 0]);
    let statement = statement(&mut b);
    b.then(taken, statement);
    let (answer, _, _) = host::watched(&b.table(), &inputs(&[7, 9]), 0);
    let expected = answer.led_nowhere().then_some(Pointer { name: 2, offset });
    let used = watched::used_pointer(&b.table(), &inputs(&[7, 9]), 0);
    assert_eq!(used, expected);
    answer.number
}

#[test]
fn through_a_temporary_a_read_or_store_outside_is_50_and_an_initialise_48() {
    let read = |b: &mut Builder| {
        let place = b.add(12, 3, [0; 3]);
        let value = b.read(place);
        b.add(61, 0, [value, 0, 0])
    };
    let store = |b: &mut Builder| {
        let place = b.add(12, 3, [0; 3]);
        let value = b.literal(8);
        b.take(place, value)
    };
    let initialise = |b: &mut Builder| b.add(70, 3, [0; 3]);
    let ends = |offset| [read, store, initialise].map(|statement| on_t3(offset, statement));
    assert_eq!([0, 1].map(ends), [[0, 0, 0]; 2]);
    assert_eq!(FAR.map(ends), [[50, 50, 48]; 8]);
}

/// What the bytes left say of a pointer that was used.
fn told_by(memory: &[u8], pointer: Pointer) -> u32 {
    let start = (pointer.name as usize - 1) * BLOCK_BYTES;
    let block = &memory[start..start + BLOCK_BYTES];
    let length = i64::from(u16::from_le_bytes([block[4], block[5]]));
    match block[0] {
        1 | 2 if pointer.offset < 0 || pointer.offset >= length => 50,
        1 | 2 => 0,
        _ => 42,
    }
}

/// A run's answer, the memory it left and the pointer it used.
type Run = fn(&[u8], &[u8], u32) -> (Answer, Vec<u8>, Option<Pointer>);

/// A run used a pointer exactly where it ended 42 or 50, and the bytes left tell which; both come often.
fn tell_dead_from_outside_in_bytes(seed: u64, next: fn(&mut Generator) -> Vec<u8>, run: Run) {
    let mut generator = Generator::new(seed);
    let mut counts = BTreeMap::new();
    for _ in 0..20_000 {
        let table = next(&mut generator);
        let fuel = generator.fuel_for(&table);
        let (answer, memory, used) = run(&table, &generator.inputs(), fuel);
        assert_eq!(used.is_some(), answer.led_nowhere());
        if let Some(pointer) = used {
            assert_eq!(told_by(&memory, pointer), answer.number, "{pointer:?}");
            *counts.entry(answer.number).or_insert(0) += 1;
        }
    }
    let often = counts.values().all(|&came| came >= 100);
    assert!(counts.len() == 2 && often, "{counts:?}");
}

#[test]
fn the_bytes_left_tell_dead_from_outside_on_20000_programs() {
    tell_dead_from_outside_in_bytes(51, Generator::astray_source, |source, inputs, fuel| {
        let (answer, memory) = host::both(source, inputs, fuel);
        (answer, memory, used_by_both(source, inputs, fuel))
    });
}

#[test]
fn the_bytes_left_tell_dead_from_outside_on_20000_targets() {
    tell_dead_from_outside_in_bytes(52, Generator::astray_target, |target, inputs, fuel| {
        let (answer, memory, _) = host::watched(target, inputs, fuel);
        (answer, memory, watched::used_pointer(target, inputs, fuel))
    });
}
