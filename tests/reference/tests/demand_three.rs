//! Demand 3 on random accepted programs: plain and watched run do not part, and both end where
//! the run past false assertions says.

use reference::answer::PLAIN_ENDINGS;
use reference::checker::{check_source, check_target};
use reference::generator::Generator;
use reference::high_names::names_given;
use reference::host::{free_cells, inputs, is_mirrored, plain, translated, watched};
use reference::limits::BLOCKS_BYTES;
use reference::past::{past, Past, Truth};
use reference::translator::translation;
use reference::Answer;
use std::collections::BTreeMap;

/// How often each ending came, and what the assertions did.
#[derive(Default)]
struct Counts {
    endings: BTreeMap<u32, u32>,
    reached: usize,
    reached_false: usize,
    stopped_inside: usize,
    later_false: usize,
    most_from_one: usize,
    names_above_255: usize,
}

impl Counts {
    fn add(&mut self, number: u32, past: &Past) {
        *self.endings.entry(number).or_default() += 1;
        let of = |truth| {
            past.reached
                .iter()
                .filter(|reached| reached.truth == truth)
                .count()
        };
        self.reached += past.reached.len();
        self.reached_false += of(Truth::False).min(1);
        self.stopped_inside += of(Truth::Ended);
        let first_is_true = past.reached.first().is_some_and(|r| r.truth == Truth::True);
        self.later_false += usize::from(first_is_true && of(Truth::False) > 0);
    }

    /// Every ending a translated program can have came at least `times` times.
    fn show_every_ending(&self, times: u32) {
        for number in PLAIN_ENDINGS {
            let came = self.endings.get(&number).copied().unwrap_or(0);
            assert!(
                came >= times,
                "{number} came {came} times: {:?}",
                self.endings
            );
        }
        assert_eq!(
            self.endings.len(),
            PLAIN_ENDINGS.len(),
            "{:?}",
            self.endings
        );
        assert!(
            self.reached > 10_000 && self.reached_false > 200,
            "{}",
            self.reached
        );
        assert!(
            self.stopped_inside > 50 && self.later_false > 20,
            "{}",
            self.stopped_inside
        );
        assert_eq!(self.most_from_one, 14);
    }
}

/// "At most 14 target records come from each source record."
fn most_records_from_one(source: &[u8]) -> usize {
    let translation = translation(source).unwrap_or_else(|refusal| panic!("{refusal:?}"));
    let mut from = vec![0; source.len() / 16 + 1];
    for origin in translation.origins {
        from[usize::from(origin)] += 1;
    }
    from.into_iter().max().unwrap_or(0)
}

/// "Free cells plus lengths of live blocks make 1,024"; free cells are those of kind 0.
fn free_cells_add_up(memory: &[u8], reported: u32) {
    let length = |block: &[u8]| u32::from(u16::from_le_bytes([block[4], block[5]]));
    let live: u32 = memory[..BLOCKS_BYTES].chunks(8).map(length).sum();
    let free = free_cells(memory);
    assert_eq!((free, free + live), (reported, 1024));
}

/// One program through everything demand 3 says of it.
fn demand_three(source: &[u8], inputs: &[u8], fuel: u32, counts: &mut Counts) {
    assert_eq!(check_source(source).number, 0);
    let target = translated(source).expect("accepted");
    assert_eq!(
        (check_target(&target).number, check_target(&target).record),
        (0, 0)
    );
    let most = most_records_from_one(source);
    assert!(most <= 14 && target.len() <= 14 * source.len());
    counts.most_from_one = counts.most_from_one.max(most);

    let (answer, memory) = plain(source, inputs, fuel);
    let (watched_answer, watched_memory, observation) = watched(&target, inputs, fuel);
    assert_eq!(answer, watched_answer);
    assert!(memory == watched_memory);
    free_cells_add_up(&memory, answer.free_cells);
    assert!(!matches!(watched_answer.number, 48 | 49));
    assert!(is_mirrored(answer, &memory, &observation));

    let past = past(source, inputs, fuel).expect("not refused");
    ends_where_told(&past, answer, &memory);
    counts.add(answer.number, &past);
    counts.names_above_255 += usize::from(names_given(&memory) > 255);
}

/// "Both runs end 33 at the first that is false."
fn ends_where_told(past: &Past, answer: Answer, memory: &[u8]) {
    let (predicted, predicted_memory) = past.predicted();
    assert_eq!(answer, predicted);
    assert!(memory == predicted_memory.image());
    let first = past
        .reached
        .iter()
        .find(|reached| reached.truth == Truth::False);
    assert_eq!(first.is_some(), answer.number == 33);
    if let Some(first) = first {
        assert_eq!((first.statement, first.fuel), (answer.record, answer.fuel));
    }
}

fn on_programs(seed: u64, times: u32, next: fn(&mut Generator) -> Vec<u8>) -> Counts {
    let mut generator = Generator::new(seed);
    let mut counts = Counts::default();
    for _ in 0..times {
        let source = next(&mut generator);
        let inputs = generator.inputs();
        let fuel = generator.fuel_for(&source);
        demand_three(&source, &inputs, fuel, &mut counts);
    }
    counts
}

#[test]
fn holds_on_11000_child_first_programs() {
    on_programs(1, 11_000, Generator::child_first_source).show_every_ending(20);
}

#[test]
fn holds_on_11000_shuffled_programs() {
    on_programs(2, 11_000, Generator::shuffled_source).show_every_ending(20);
}

#[test]
fn holds_on_11000_programs_that_compare_pointers() {
    on_programs(4, 11_000, Generator::comparing_source).show_every_ending(5);
}

#[test]
fn holds_on_7000_programs_that_give_many_names() {
    let counts = on_programs(5, 7_000, Generator::many_names_source);
    counts.show_every_ending(2);
    assert!(counts.names_above_255 > 4_000, "{}", counts.names_above_255);
}

#[test]
fn every_amount_of_fuel_up_to_the_need_is_told_alike() {
    let mut generator = Generator::new(3);
    let mut counts = Counts::default();
    for _ in 0..150 {
        let source = generator.accepted_source();
        for fuel in 0..12 {
            demand_three(&source, &inputs(&[7, 9]), fuel, &mut counts);
        }
    }
    assert!(
        counts.endings[&32] > 50 && counts.endings[&0] > 500,
        "{:?}",
        counts.endings
    );
}
