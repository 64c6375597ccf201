//! Operator 7 on two pointers ends 47 where either block is not live: in expressions and predicates, in plain and
//! watched runs, by hand and on seeded programs.

use reference::answer::Answer;
use reference::builder::Builder;
use reference::checker::check_source;
use reference::generator::Generator;
use reference::host::{self, inputs, translated};
use reference::value::Compared;
use reference::{plain, watched};
use std::collections::BTreeMap;

/// A pointer, into a block of 2 cells at this offset, or an integer.
#[derive(Debug, Clone, Copy)]
enum Operand {
    Live(i64),
    Dead(i64),
    Inputs,
    Integer,
}
use Operand::{Dead, Inputs, Integer, Live};

const FREED: u8 = 1;
const KEPT: u8 = 2;
/// Far outside a block of 2 cells, on both sides.
const FAR: [i64; 6] = [-1, 2, 1 << 16, 1 << 32, i64::MAX, i64::MIN];

fn expression(b: &mut Builder, operand: Operand) -> u16 {
    match operand {
        Live(offset) => b.shifted_variable(KEPT, offset),
        Dead(offset) => b.shifted_variable(FREED, offset),
        Inputs => b.read_variable(0),
        Integer => b.literal(0),
    }
}

/// A statement that compares two operands.
type Use = fn(&mut Builder, Operand, Operand) -> u16;

/// The first input becomes the truth.
fn stored(b: &mut Builder, left: Operand, right: Operand) -> u16 {
    let inputs = b.read_variable(0);
    let place = b.pointed(inputs);
    let left = expression(b, left);
    let right = expression(b, right);
    let equal = b.operator(7, left, right);
    b.take(place, equal)
}

/// An if of kind 4: the first input becomes 1 or 0.
fn tested(b: &mut Builder, left: Operand, right: Operand) -> u16 {
    let left = expression(b, left);
    let right = expression(b, right);
    let condition = b.operator(7, left, right);
    let [then, otherwise] = [1, 0].map(|truth| {
        let inputs = b.read_variable(0);
        let place = b.pointed(inputs);
        let truth = b.literal(truth);
        b.take(place, truth)
    });
    b.if_else(condition, then, otherwise)
}

/// assert (kind 4) = 1.
fn asserted_expression(b: &mut Builder, left: Operand, right: Operand) -> u16 {
    let left = expression(b, left);
    let right = expression(b, right);
    let equal = b.operator(7, left, right);
    let equal = b.term(equal);
    let one = b.literal_term(1);
    let predicate = b.compare(7, equal, one);
    b.assert(predicate)
}

/// Kind 32, whose left term is a shift of kind 24.
fn asserted(b: &mut Builder, left: Operand, right: Operand) -> u16 {
    let shifted = matches!(left, Live(_) | Dead(_) | Inputs);
    let left = expression(b, left);
    let mut left = b.term(left);
    if shifted {
        let zero = b.literal_term(0);
        left = b.term_operator(8, left, zero);
    }
    let right = expression(b, right);
    let right = b.term(right);
    let predicate = b.compare(7, left, right);
    b.assert(predicate)
}

/// In the program twice, in assertions twice: kinds 4, 4, 4 and 32.
const USES: [Use; 4] = [stored, tested, asserted_expression, asserted];

/// let 1, 2 in (1 = new 2; free 1; 2 = new 2; the use), and the use.
fn program(used: Use, left: Operand, right: Operand) -> (Vec<u8>, u16) {
    let mut b = Builder::source();
    let new = b.new_in(FREED, 2);
    let free = b.free_variable(FREED);
    let other = b.new_in(KEPT, 2);
    let statement = used(&mut b, left, right);
    let body = b.sequence(&[new, free, other, statement]);
    let inner = b.let_in(KEPT, body);
    b.let_in(FREED, inner);
    (b.table(), statement)
}

/// What both runs of that make of the comparison. A stop names the use, with fuel, cells and inputs as then.
fn outcome(used: Use, left: Operand, right: Operand) -> Result<bool, u32> {
    let (source, statement) = program(used, left, right);
    let (answer, memory) = host::both(&source, &inputs(&[7, 9]), 5);
    let first_input = host::cell(&memory, 1)[8];
    match (answer.number, first_input) {
        (0, 0) | (33, 7) => Ok(false),
        (0, 1 | 7) => Ok(true),
        (number, input) => {
            let free_cells = 1024 - 3 - 2 - 2;
            let stopped = Answer::ending(number, u32::from(statement), 5, free_cells);
            assert_eq!((answer, input), (stopped, 7));
            Err(number)
        }
    }
}

fn on_every_use(left: Operand, right: Operand) -> [Result<bool, u32>; 4] {
    USES.map(|used| outcome(used, left, right))
}

#[test]
fn a_dead_pointer_on_either_side_ends_47() {
    for other in [Live(0), Live(1), Inputs, Live(-1)] {
        assert_eq!(on_every_use(Dead(0), other), [Err(47); 4]);
        assert_eq!(on_every_use(other, Dead(0)), [Err(47); 4]);
    }
}

#[test]
fn two_dead_pointers_end_47_equal_ones_too() {
    for offset in [0, 1, -1, i64::MAX] {
        assert_eq!(on_every_use(Dead(0), Dead(offset)), [Err(47); 4]);
        assert_eq!(on_every_use(Dead(offset), Dead(offset)), [Err(47); 4]);
    }
}

#[test]
fn a_dead_pointer_ends_47_whatever_its_offset() {
    for offset in FAR {
        assert_eq!(on_every_use(Dead(offset), Live(0)), [Err(47); 4]);
        assert_eq!(on_every_use(Live(offset), Dead(offset)), [Err(47); 4]);
    }
}

#[test]
fn live_pointers_compare_by_name_and_offset() {
    for offset in FAR.into_iter().chain([0, 1]) {
        assert_eq!(on_every_use(Live(offset), Live(offset)), [Ok(true); 4]);
        let other = if offset == 0 { 1 } else { 0 };
        assert_eq!(on_every_use(Live(offset), Live(other)), [Ok(false); 4]);
        assert_eq!(on_every_use(Live(offset), Inputs), [Ok(false); 4]);
    }
    assert_eq!(on_every_use(Inputs, Inputs), [Ok(true); 4]);
}

#[test]
fn an_integer_against_a_dead_pointer_is_40_first() {
    for offset in [0, 2] {
        assert_eq!(on_every_use(Integer, Dead(offset)), [Err(40); 4]);
        assert_eq!(on_every_use(Dead(offset), Integer), [Err(40); 4]);
    }
}

/// "24 operator 1–5 or 8": a term compares nothing, so kind 32 alone compares terms.
#[test]
fn a_term_of_operator_7_is_refused() {
    let mut b = Builder::source();
    let left = b.address_term(0);
    let right = b.address_term(0);
    let equal = b.term_operator(7, left, right);
    let one = b.literal_term(1);
    let predicate = b.compare(7, equal, one);
    b.assert(predicate);
    assert_eq!(check_source(&b.table()), Answer::of(4, u32::from(equal)));
}

/// The state of a block in the bytes of a memory.
fn state(memory: &[u8], name: u32) -> u8 {
    host::block(memory, name as usize)[0]
}

/// The kind of a comparison, and whether left and right are live in the memory that it asks.
type Asked = (u8, bool, bool);

fn asked(compared: Compared, memory: &[u8], observation: &[u8]) -> Asked {
    let Compared { kind, left, right } = compared;
    let is_live = |name| match kind {
        63 => state(observation, name) == 1,
        _ => matches!(state(memory, name), 1 | 2),
    };
    (kind, is_live(left.name), is_live(right.name))
}

/// Every comparison that ended a run had a block that was not live: left, right and both come often, of every kind.
fn assert_reached(counts: &BTreeMap<Asked, u32>, kinds: [u8; 2]) {
    let sides = [(false, false), (false, true), (true, false)];
    let reached = kinds.map(|kind| sides.map(|(left, right)| (kind, left, right)));
    assert!(counts.keys().eq(reached.as_flattened()), "{counts:?}");
    assert!(counts.values().all(|&times| times >= 100), "{counts:?}");
}

/// Kind 32 is 63 in the translation, on the same pointers.
fn in_the_translation(compared: Compared) -> Compared {
    let kind = if compared.kind == 32 { 63 } else { 4 };
    Compared { kind, ..compared }
}

#[test]
fn both_runs_end_47_at_the_same_comparison_on_20000_programs() {
    let mut generator = Generator::new(71);
    let (mut plainly, mut watching) = (BTreeMap::new(), BTreeMap::new());
    for _ in 0..20_000 {
        let source = generator.comparing_source();
        let (inputs, fuel) = (generator.inputs(), generator.fuel_for(&source));
        let (answer, memory) = host::both(&source, &inputs, fuel);
        let compared = plain::compared(&source, &inputs, fuel);
        let target = translated(&source).expect("accepted");
        let translated = compared.map(in_the_translation);
        assert_eq!(watched::compared(&target, &inputs, fuel), translated);
        if let (Some(compared), Some(translated)) = (compared, translated) {
            assert_eq!(answer.number, 47);
            let mirror = host::mirror(&memory);
            *plainly
                .entry(asked(compared, &memory, &mirror))
                .or_insert(0) += 1;
            *watching
                .entry(asked(translated, &memory, &mirror))
                .or_insert(0) += 1;
        }
    }
    assert_reached(&plainly, [4, 32]);
    assert_reached(&watching, [4, 63]);
}

#[test]
fn each_kind_asks_its_own_memory_on_20000_targets() {
    let mut generator = Generator::new(72);
    let (mut counts, mut unrecorded) = (BTreeMap::new(), 0);
    for _ in 0..20_000 {
        let target = generator.comparing_target();
        let (inputs, fuel) = (generator.inputs(), generator.fuel_for(&target));
        let (answer, memory, observation) = host::watched(&target, &inputs, fuel);
        if let Some(compared) = watched::compared(&target, &inputs, fuel) {
            assert_eq!(answer.number, 47);
            *counts
                .entry(asked(compared, &memory, &observation))
                .or_insert(0) += 1;
            let name = compared.left.name;
            let only_executed = state(&memory, name) == 2 && state(&observation, name) == 0;
            unrecorded += u32::from(compared.kind == 63 && only_executed);
        }
    }
    assert_reached(&counts, [4, 63]);
    assert!(unrecorded >= 100, "{unrecorded}");
}
