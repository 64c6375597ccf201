//! Translations written out by hand, one for each way of translating.

use reference::builder::Builder;
use reference::listing::listing;
use reference::translator::{translate, translation};
use reference::Answer;

/// The records of a source, `kind mark A B C literal` each.
fn source(lines: &[[i64; 6]]) -> Vec<u8> {
    let mut b = Builder::source();
    for &[kind, mark, a, b_child, c, literal] in lines {
        b.push(reference::record::Record {
            kind: kind as u8,
            mark: mark as u8,
            a: a as u16,
            b: b_child as u16,
            c: c as u16,
            literal,
        });
    }
    b.table()
}

fn expect(lines: &[[i64; 6]], text: &str) {
    let expected: String = text
        .split(',')
        .map(|line| format!("{}\n", line.trim()))
        .collect();
    assert_eq!(listing(&source(lines)), expected);
}

#[test]
fn a_store_saves_its_address_first() {
    expect(
        &[[10, 0, 0, 0, 0, 0], [1, 0, 0, 0, 0, 5], [41, 0, 1, 2, 0, 0]],
        "1 10 0 0 0 0 0, 2 60 0 1 0 0 3, 3 10 0 0 0 0 0, 4 1 0 0 0 0 5, 5 41 0 3 4 0 3,
         6 70 0 0 0 0 3, 7 44 0 5 6 0 3, 8 44 0 2 7 0 3",
    );
}

#[test]
fn a_new_block_saves_address_and_size_first() {
    expect(
        &[[10, 0, 0, 0, 0, 0], [1, 0, 0, 0, 0, 4], [42, 0, 1, 2, 0, 0]],
        "1 10 0 0 0 0 0, 2 60 0 1 0 0 3, 3 1 0 0 0 0 4, 4 61 2 3 0 0 3, 5 10 0 0 0 0 0,
         6 1 0 0 0 0 4, 7 42 0 5 6 0 3, 8 12 0 0 0 0 0, 9 2 0 8 0 0 0, 10 61 1 9 0 0 3,
         11 68 1 0 0 0 3, 12 70 0 0 0 0 3, 13 44 0 11 12 0 3, 14 44 0 10 13 0 3,
         15 44 0 7 14 0 3, 16 44 0 4 15 0 3, 17 44 0 2 16 0 3",
    );
}

#[test]
fn a_free_saves_its_pointer_first() {
    expect(
        &[[10, 0, 0, 0, 0, 0], [2, 0, 1, 0, 0, 0], [43, 0, 2, 0, 0, 0]],
        "1 10 0 0 0 0 0, 2 2 0 1 0 0 0, 3 61 0 2 0 0 3, 4 10 0 0 0 0 0, 5 2 0 4 0 0 0,
         6 43 0 5 0 0 3, 7 69 0 0 0 0 3, 8 44 0 6 7 0 3, 9 44 0 3 8 0 3",
    );
}

#[test]
fn a_let_records_its_block_and_deletes_it_in_14_records() {
    let table = [[40, 0, 0, 0, 0, 0], [47, 7, 1, 0, 0, 0]];
    expect(
        &table,
        "1 10 7 0 0 0 0, 2 60 0 1 0 0 2, 3 1 0 0 0 0 1, 4 61 1 3 0 0 2, 5 68 0 0 0 0 2,
         6 40 0 0 0 0 1, 7 10 7 0 0 0 0, 8 60 0 7 0 0 2, 9 69 0 0 0 0 2, 10 44 0 8 9 0 2,
         11 44 0 6 10 0 2, 12 44 0 5 11 0 2, 13 44 0 4 12 0 2, 14 44 0 2 13 0 2,
         15 47 7 14 0 0 2",
    );
    let origins = translation(&source(&table)).map(|it| it.origins);
    let origins = origins.expect("accepted");
    assert_eq!(origins.iter().filter(|&&origin| origin == 2).count(), 14);
}

#[test]
fn and_and_or_become_a_branch_with_a_skip() {
    let operand = |kind, from| {
        [
            [10, 0, 0, 0, 0, 0],
            [3, 0, from, 0, 0, 0],
            [20, 0, from + 1, 0, 0, 0],
        ]
        .into_iter()
        .chain([[kind, 0, from + 2, 0, 0, 0]])
    };
    let assertion = |kind| {
        let operands = operand(30, 1).chain(operand(31, 5));
        let lines: Vec<[i64; 6]> = operands
            .chain([[kind, 0, 4, 8, 0, 0], [48, 0, 9, 0, 0, 0]])
            .collect();
        lines
    };
    let first = "1 10 0 0 0 0 0, 2 3 0 1 0 0 0, 3 61 1 2 0 0 10, 4 64 0 0 0 1 10, 5 44 0 3 4 0 10";
    let last = "13 44 0 5 12 0 10, 14 67 0 0 0 0 10, 15 44 0 13 14 0 10";
    let and = "6 10 0 0 0 0 0, 7 3 0 6 0 0 0, 8 61 1 7 0 0 10, 9 64 0 0 0 2 10,
         10 44 0 8 9 0 10, 11 40 0 0 0 0 10, 12 66 0 0 10 11 10";
    let or = "6 40 0 0 0 0 10, 7 10 0 0 0 0 0, 8 3 0 7 0 0 0, 9 61 1 8 0 0 10,
         10 64 0 0 0 2 10, 11 44 0 9 10 0 10, 12 66 0 0 6 11 10";
    expect(&assertion(34), &format!("{first}, {and}, {last}"));
    expect(&assertion(35), &format!("{first}, {or}, {last}"));
}

#[test]
fn operators_and_not_climb_the_temporaries() {
    expect(
        &[
            [1, 0, 0, 0, 0, 1],
            [20, 0, 1, 0, 0, 0],
            [1, 0, 0, 0, 0, 2],
            [20, 0, 3, 0, 0, 0],
            [24, 1, 2, 4, 0, 0],
            [1, 0, 0, 0, 0, 3],
            [20, 0, 6, 0, 0, 0],
            [32, 7, 5, 7, 0, 0],
            [33, 0, 8, 0, 0, 0],
            [48, 0, 9, 0, 0, 0],
        ],
        "1 1 0 0 0 0 1, 2 61 3 1 0 0 10, 3 1 0 0 0 0 2, 4 61 4 3 0 0 10, 5 63 2 0 0 1 10,
         6 44 0 4 5 0 10, 7 44 0 2 6 0 10, 8 1 0 0 0 0 3, 9 61 3 8 0 0 10, 10 63 1 0 0 7 10,
         11 44 0 9 10 0 10, 12 44 0 7 11 0 10, 13 65 0 0 0 0 10, 14 44 0 12 13 0 10,
         15 67 0 0 0 0 10, 16 44 0 14 15 0 10",
    );
}

#[test]
fn queries_keep_their_order_1_to_5() {
    for (kind, query) in [(21, 3), (22, 4), (23, 5)] {
        let lines = [
            [10, 0, 0, 0, 0, 0],
            [2, 0, 1, 0, 0, 0],
            [20, 0, 2, 0, 0, 0],
            [kind, 0, 3, 0, 0, 0],
            [31, 0, 4, 0, 0, 0],
            [48, 0, 5, 0, 0, 0],
        ];
        let text = format!(
            "1 10 0 0 0 0 0, 2 2 0 1 0 0 0, 3 61 2 2 0 0 6, 4 64 1 0 0 {query} 6,
             5 44 0 3 4 0 6, 6 64 0 0 0 2 6, 7 44 0 5 6 0 6, 8 67 0 0 0 0 6, 9 44 0 7 8 0 6"
        );
        expect(&lines, &text);
    }
}

#[test]
fn skip_then_if_and_while_keep_their_form() {
    expect(
        &[
            [1, 0, 0, 0, 0, 1],
            [40, 0, 0, 0, 0, 0],
            [40, 0, 0, 0, 0, 0],
            [45, 0, 1, 2, 3, 0],
            [1, 0, 0, 0, 0, 0],
            [40, 0, 0, 0, 0, 0],
            [46, 0, 5, 6, 0, 0],
            [44, 0, 4, 7, 0, 0],
        ],
        "1 1 0 0 0 0 1, 2 40 0 0 0 0 2, 3 40 0 0 0 0 3, 4 45 0 1 2 3 4, 5 1 0 0 0 0 0,
         6 40 0 0 0 0 6, 7 46 0 5 6 0 7, 8 44 0 4 7 0 8",
    );
}

#[test]
fn a_source_in_another_order_is_put_child_first() {
    expect(
        &[
            [40, 0, 0, 0, 0, 0],
            [1, 0, 0, 0, 0, 6],
            [10, 0, 0, 0, 0, 0],
            [41, 0, 3, 2, 0, 0],
            [44, 0, 4, 1, 0, 0],
        ],
        "1 10 0 0 0 0 0, 2 60 0 1 0 0 4, 3 10 0 0 0 0 0, 4 1 0 0 0 0 6, 5 41 0 3 4 0 4,
         6 70 0 0 0 0 4, 7 44 0 5 6 0 4, 8 44 0 2 7 0 4, 9 40 0 0 0 0 1, 10 44 0 8 9 0 5",
    );
}

#[test]
fn the_output_may_be_longer_and_its_further_bytes_stay() {
    let table = source(&[[40, 0, 0, 0, 0, 0]]);
    let mut output = [0xEE; 40];
    assert_eq!(translate(&table, &mut output), Answer::of(0, 1));
    assert_eq!(
        output[..16],
        [40, 0, 0, 0, 0, 0, 0, 0, 1, 0, 0, 0, 0, 0, 0, 0]
    );
    assert_eq!(output[16..], [0xEE; 24]);
}

#[test]
fn an_output_one_byte_short_is_20_and_untouched() {
    let table = source(&[[40, 0, 0, 0, 0, 0]]);
    let mut output = [0xEE; 15];
    assert_eq!(translate(&table, &mut output), Answer::of(20, 0));
    assert_eq!(output, [0xEE; 15]);
    let mut exact = [0xEE; 16];
    assert_eq!(translate(&table, &mut exact), Answer::of(0, 1));
}

#[test]
fn the_listing_of_a_refused_table_is_one_line() {
    assert_eq!(listing(&[]), "1 0\n");
    assert_eq!(listing(&[0; 4112]), "2 0\n");
    assert_eq!(listing(&[0; 4113]), "1 0\n");
    assert_eq!(
        listing(&source(&[[40, 0, 0, 0, 0, 0], [40, 0, 0, 0, 0, 0]])),
        "6 1\n"
    );
}
