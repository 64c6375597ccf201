//! What the generators reach: every refusal, every ending, both record orders.

use reference::answer::{Answer, PLAIN_ENDINGS};
use reference::checker::{check_source, check_target};
use reference::generator::order::{child_first, child_first_order, renumbered};
use reference::generator::Generator;
use reference::host::{plain, translated, watched};
use reference::plain::run_plain;
use reference::record::{records, table, Record};
use reference::translator::translate;
use reference::watched::run_watched;
use std::collections::{BTreeMap, BTreeSet};

type Counts = BTreeMap<u32, u32>;

fn count(times: u32, mut next: impl FnMut() -> Answer) -> Counts {
    let mut counts = Counts::new();
    for _ in 0..times {
        *counts.entry(next().number).or_default() += 1;
    }
    counts
}

fn reaches(counts: &Counts, numbers: impl IntoIterator<Item = u32>, times: u32) {
    for number in numbers {
        let came = counts.get(&number).copied().unwrap_or(0);
        assert!(came >= times, "{number} came {came} times: {counts:?}");
    }
}

#[test]
fn damaged_sources_reach_every_refusal() {
    let mut generator = Generator::new(11);
    let counts = count(8_000, || check_source(&generator.damaged_source()));
    reaches(&counts, 1..=8, 200);
    assert!(counts.keys().all(|number| *number <= 8));
}

#[test]
fn damaged_targets_reach_every_refusal() {
    let mut generator = Generator::new(12);
    let counts = count(8_000, || check_target(&generator.damaged_target()));
    reaches(&counts, 1..=7, 150);
    assert!(counts.keys().all(|number| *number <= 7));
}

#[test]
fn sources_run_plain_reach_every_ending_and_mostly_finish() {
    let mut generator = Generator::new(13);
    let counts = count(10_000, || {
        let source = generator.accepted_source();
        let fuel = generator.fuel_for(&source);
        plain(&source, &generator.inputs(), fuel).0
    });
    reaches(&counts, PLAIN_ENDINGS, 20);
    reaches(&counts, [0], 4_000);
    assert_eq!(counts.len(), PLAIN_ENDINGS.len(), "{counts:?}");
}

#[test]
fn targets_run_watched_reach_every_ending_and_often_finish() {
    let mut generator = Generator::new(14);
    let counts = count(12_000, || {
        let target = generator.hand_made_target();
        let fuel = generator.fuel_for(&target);
        watched(&target, &generator.inputs(), fuel).0
    });
    reaches(&counts, PLAIN_ENDINGS, 3);
    reaches(&counts, 47..=49, 80);
    reaches(&counts, [0], 4_000);
}

#[test]
fn programs_that_compare_pointers_often_end_47_and_reach_every_ending() {
    let mut generator = Generator::new(25);
    let counts = count(10_000, || {
        let source = generator.comparing_source();
        let fuel = generator.fuel_for(&source);
        plain(&source, &generator.inputs(), fuel).0
    });
    reaches(&counts, PLAIN_ENDINGS, 10);
    reaches(&counts, [0, 47], 1_500);
    let counts = count(10_000, || {
        let target = generator.comparing_target();
        let fuel = generator.fuel_for(&target);
        watched(&target, &generator.inputs(), fuel).0
    });
    reaches(&counts, PLAIN_ENDINGS, 1);
    reaches(&counts, [48, 49], 200);
    reaches(&counts, [0, 47], 1_500);
}

#[test]
fn changed_translations_are_accepted_and_reach_contradictions() {
    let mut generator = Generator::new(15);
    let counts = count(4_000, || {
        let target = generator.changed_target();
        assert_eq!(check_target(&target), Answer::ACCEPTED);
        watched(&target, &generator.inputs(), 40).0
    });
    reaches(&counts, [0, 33, 40, 48, 49], 30);
}

#[test]
fn source_cases_reach_9_and_21_among_runs() {
    let mut generator = Generator::new(16);
    let counts = count(6_000, || {
        let mut case = generator.source_case();
        run_plain(&case.table, &case.inputs, case.fuel, &mut case.memory)
    });
    reaches(&counts, (0..=9).chain([21]), 10);
}

#[test]
fn target_cases_reach_9_21_and_22_among_runs() {
    let mut generator = Generator::new(17);
    let counts = count(6_000, || {
        let mut case = generator.target_case();
        let (memory, observation) = (&mut case.memory, &mut case.observation);
        run_watched(&case.table, &case.inputs, case.fuel, memory, observation)
    });
    reaches(&counts, (0..=7).chain([9, 21, 22]), 10);
}

#[test]
fn outputs_are_long_enough_or_short_as_asked() {
    let mut generator = Generator::new(18);
    for _ in 0..500 {
        let source = generator.accepted_source();
        let count = translated(&source).expect("accepted").len() as u32 / 16;
        let mut output = generator.output(count);
        assert_eq!(translate(&source, &mut output), Answer::of(0, count));
        let mut short = generator.short_output(count);
        assert_eq!(translate(&source, &mut short), Answer::of(20, 0));
    }
}

#[test]
fn the_longest_tables_come_too() {
    let mut generator = Generator::new(19);
    let lengths: Vec<usize> = (0..4_000)
        .map(|_| generator.accepted_source().len() / 16)
        .collect();
    assert!(lengths.contains(&255) && lengths.contains(&256));
    let lengths: Vec<usize> = (0..2_000)
        .map(|_| generator.hand_made_target().len() / 16)
        .collect();
    assert!(lengths.contains(&4095) && lengths.contains(&4096));
}

/// The kinds that come in 600 tables, rising.
fn kinds(mut next: impl FnMut() -> Vec<u8>) -> Vec<u8> {
    let tables = (0..600).map(|_| records(&next()));
    let kinds: BTreeSet<u8> = tables.flatten().map(|record| record.kind).collect();
    kinds.into_iter().collect()
}

#[test]
fn every_kind_comes_in_accepted_tables() {
    let mut generator = Generator::new(20);
    let all = |ranges: &[std::ops::RangeInclusive<u8>]| -> Vec<u8> {
        ranges.iter().cloned().flatten().collect()
    };
    let source = all(&[1..=5, 10..=11, 20..=24, 30..=35, 40..=48]);
    assert_eq!(kinds(|| generator.accepted_source()), source);
    let target = all(&[1..=5, 10..=12, 40..=47, 60..=61, 63..=70]);
    assert_eq!(kinds(|| generator.target()), target);
}

#[test]
fn equal_seeds_give_equal_cases() {
    let (mut one, mut other) = (Generator::new(21), Generator::new(21));
    let mut third = Generator::new(22);
    let mut differing = 0;
    for _ in 0..200 {
        let case = one.source_case();
        assert_eq!(case, other.source_case());
        assert_eq!(one.target_case(), other.target_case());
        differing += u32::from(case != third.source_case());
    }
    assert!(differing > 190);
}

/// The source statements of a table's translation, as numbers in another order of that table.
fn relabelled(source: &[u8], order: &[usize]) -> Vec<Record> {
    let mut list = records(&translated(source).expect("accepted"));
    for record in list.iter_mut().filter(|record| record.kind >= 40) {
        let old = record.literal as usize - 1;
        record.literal = order.iter().position(|&at| at == old).expect("a place") as i64 + 1;
    }
    list
}

#[test]
fn a_shuffled_program_is_the_child_first_one_with_other_numbers() {
    let mut generator = Generator::new(23);
    let mut moved = 0;
    for _ in 0..400 {
        let grown = generator.child_first_source();
        assert_eq!(table(&child_first(&records(&grown))), grown);
        let shuffled = generator.shuffled_source();
        let list = records(&shuffled);
        let order = child_first_order(&list);
        let back = table(&renumbered(&list, &order));
        moved += u32::from(back != shuffled);
        assert_eq!(check_source(&back), Answer::ACCEPTED);
        assert_eq!(
            records(&translated(&back).expect("accepted")),
            relabelled(&shuffled, &order)
        );
    }
    assert!(moved > 300, "{moved}");
}

#[test]
fn inputs_are_good_and_bad_as_asked() {
    let mut generator = Generator::new(24);
    let skip = table(&[Record {
        kind: 40,
        ..Record::default()
    }]);
    for _ in 0..300 {
        assert_eq!(plain(&skip, &generator.inputs(), 0).0.number, 0);
        assert_eq!(plain(&skip, &generator.bad_inputs(), 0).0, Answer::of(9, 0));
    }
}
