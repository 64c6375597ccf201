//! Refusals 1 to 7 of a target table, each at its boundary.

use crate::forms::{target_forms, Around, Rules};
use reference::builder::Builder;
use reference::checker::{check_source, check_target};
use reference::record::{table, Record};
use reference::Answer;

/// Each kind that names temporaries, with the last mark it may have.
const LAST_MARKS: [(u8, u8); 11] = [
    (12, 63),
    (60, 63),
    (61, 63),
    (63, 61),
    (64, 62),
    (65, 62),
    (66, 63),
    (67, 63),
    (68, 62),
    (69, 63),
    (70, 63),
];

/// Literals at and around the ends of 1 to 256.
const LITERALS: [i64; 10] = [
    i64::MIN,
    -1,
    0,
    1,
    2,
    255,
    256,
    257,
    (1 << 32) + 1,
    i64::MAX,
];

fn rules() -> Rules {
    Rules {
        forms: target_forms(),
        label: 1,
        check: check_target,
    }
}

fn end(bytes: &[u8]) -> (u32, u32) {
    let answer = check_target(bytes);
    assert_eq!((answer.fuel, answer.free_cells), (0, 0));
    (answer.number, answer.record)
}

fn statement(kind: u8, [a, b, c]: [u16; 3]) -> Record {
    Record {
        kind,
        mark: 0,
        a,
        b,
        c,
        literal: 1,
    }
}

fn of_length(count: usize) -> Vec<u8> {
    let mut b = Builder::target(1);
    let mut program = b.skip();
    while b.len() + 2 <= count {
        let skip = b.skip();
        program = b.then(program, skip);
    }
    if b.len() < count {
        b.let_in(1, program);
    }
    b.table()
}

#[test]
fn no_byte_and_no_multiple_of_16_are_1() {
    for length in [0, 1, 15, 17, 4097 * 16 - 1, 4097 * 16 + 1] {
        assert_eq!(end(&vec![40; length]), (1, 0), "{length} bytes");
    }
}

#[test]
fn records_up_to_4096_are_accepted_and_4097_are_2() {
    for count in [1, 2, 257, 4095, 4096] {
        let bytes = of_length(count);
        assert_eq!(bytes.len(), count * 16);
        assert_eq!(check_target(&bytes), Answer::ACCEPTED);
    }
    assert_eq!(end(&of_length(4097)), (2, 0));
}

#[test]
fn every_form_of_the_language_is_accepted() {
    rules().every_form_is_accepted_as_it_stands();
}

#[test]
fn every_other_kind_is_3_and_62_is_none() {
    rules().every_other_kind_is_3();
    assert_eq!(end(&statement(62, [0; 3]).bytes()), (3, 1));
}

#[test]
fn every_mark_outside_its_range_is_4() {
    rules().every_mark_outside_its_range_is_4();
}

#[test]
fn naming_a_temporary_above_63_is_4() {
    for (kind, last) in LAST_MARKS {
        let forms = target_forms();
        let form = *forms.iter().find(|form| form.kind == kind).unwrap();
        let mut around = Around::new(form, 1);
        around.record().mark = last;
        assert_eq!(end(&around.table()), (0, 0), "kind {kind}");
        around.record().mark = last + 1;
        let expected = (4, around.number as u32);
        assert_eq!(end(&around.table()), expected, "kind {kind}");
    }
}

#[test]
fn a_missing_child_and_a_child_too_many_are_4() {
    rules().a_missing_child_and_a_child_too_many_are_4();
}

#[test]
fn operators_are_1_to_8_and_queries_1_to_5() {
    for form in target_forms()
        .into_iter()
        .filter(|form| !form.c_values.is_empty())
    {
        for c in (0..20).chain([255, 256, 257, u16::MAX]) {
            let mut around = Around::new(form, 1);
            around.record().c = c;
            let allowed = form.c_values.contains(&c);
            assert_eq!(
                end(&around.table()).0,
                if allowed { 0 } else { 4 },
                "field C {c}"
            );
        }
    }
}

#[test]
fn literals_from_kind_40_on_are_1_to_256() {
    for form in target_forms() {
        for literal in LITERALS {
            let mut around = Around::new(form, 1);
            around.record().literal = literal;
            let allowed = match form.kind {
                1 => true,
                40.. => (1..=256).contains(&literal),
                _ => literal == 0,
            };
            let record = around.number as u32;
            let expected = if allowed { (0, 0) } else { (4, record) };
            let kind = form.kind;
            assert_eq!(end(&around.table()), expected, "kind {kind} {literal}");
        }
    }
}

#[test]
fn a_child_of_another_sort_is_5() {
    rules().a_child_of_another_sort_is_5("eps");
}

#[test]
fn a_child_at_or_above_its_own_number_is_5() {
    rules().a_child_at_or_above_its_own_number_is_5();
}

#[test]
fn field_c_of_63_and_64_is_no_child_and_does_not_count_in_the_shape() {
    for kind in [63, 64] {
        let skip = statement(40, [0; 3]);
        let naming = statement(kind, [0, 0, 1]);
        assert_eq!(end(&table(&[skip, naming])), (6, 1));
        assert_eq!(
            end(&table(&[skip, naming, statement(44, [1, 2, 0])])),
            (0, 0)
        );
        // The number in C may even be the record's own, or above it.
        let above = statement(kind, [0, 0, 5]);
        assert_eq!(end(&table(&[above])), (0, 0));
    }
}

#[test]
fn the_shape_names_the_lowest_record() {
    let skip = statement(40, [0; 3]);
    let literal = Record {
        kind: 1,
        ..Record::default()
    };
    assert_eq!(end(&table(&[literal])), (6, 1));
    assert_eq!(end(&table(&[skip, literal])), (6, 1));
    assert_eq!(end(&table(&[skip, statement(66, [0, 1, 1])])), (6, 1));
    assert_eq!(
        end(&table(&[skip, skip, skip, statement(66, [0, 2, 3])])),
        (6, 1)
    );
}

#[test]
fn targets_are_held_to_scope_too() {
    let mut b = Builder::target(1);
    let place = b.variable(3);
    b.add(60, 0, [place, 0, 0]);
    assert_eq!(end(&b.table()), (7, u32::from(place)));
    let use_of_it = b.len() as u16;
    b.let_in(3, use_of_it);
    assert_eq!(end(&b.table()), (0, 0));
    let inner = b.len() as u16;
    b.let_in(3, inner);
    assert_eq!(end(&b.table()), (7, u32::from(inner)));
}

#[test]
fn the_branches_of_a_66_are_in_the_scope_around_it() {
    let mut b = Builder::target(1);
    let place = b.variable(3);
    let then = b.add(60, 0, [place, 0, 0]);
    let otherwise = b.skip();
    let branch = b.add(66, 0, [0, then, otherwise]);
    assert_eq!(end(&b.table()), (7, u32::from(place)));
    b.let_in(3, branch);
    assert_eq!(end(&b.table()), (0, 0));
}

#[test]
fn a_target_is_no_source_and_a_source_no_target() {
    let target = statement(40, [0; 3]).bytes();
    assert_eq!((end(&target), check_source(&target).number), ((0, 0), 4));
    let source = Record {
        kind: 40,
        ..Record::default()
    }
    .bytes();
    assert_eq!((end(&source), check_source(&source).number), ((4, 1), 0));
}
