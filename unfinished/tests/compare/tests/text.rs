//! Tables as text and as bytes, by the C host: printing and reading are inverse, and each is told from the other.

use compare::text::{is_text, printed, read, TABLE_ROOM};
use reference::checker::{check_source, check_target};
use reference::generator::Generator;
use reference::limits::RECORD_BYTES;
use reference::record::records;
use std::fmt::Write;

const TABLES: u64 = 20_000;

/// The canonical text, by the second implementation's reading of records.
fn canonical(table: &[u8]) -> String {
    let mut text = String::new();
    for (at, record) in records(table).iter().enumerate() {
        let [a, b, c] = record.fields();
        let (number, kind, mark, literal) = (at + 1, record.kind, record.mark, record.literal);
        let line = writeln!(text, "{number} {kind} {mark} {a} {b} {c} {literal}");
        line.expect("a string takes all");
    }
    text
}

/// A table's text reads back as the table. As equal tables print alike, a canonical text comes back too: it is the text
/// of the table that it reads as.
fn holds(table: &[u8], what: &str) {
    let text = printed(table);
    assert_eq!(text, canonical(table).as_bytes(), "{what}");
    assert!(is_text(&text), "{what}: the text is taken for bytes");
    let back = read(&text).unwrap_or_else(|| panic!("{what}: the text is not read"));
    assert!(back.table() == table, "{what}: other bytes came back");
}

/// On seeded tables, cut to the whole records that the host keeps. How many of them a checker accepts.
fn on_tables(seed: u64, make: fn(&mut Generator) -> Vec<u8>) -> u64 {
    let mut generator = Generator::new(seed);
    let mut accepted = 0;
    for case in 0..TABLES {
        let mut table = make(&mut generator);
        let whole = table.len().min(TABLE_ROOM) / RECORD_BYTES * RECORD_BYTES;
        table.truncate(whole);
        let what = format!("seed {seed}, case {case}");
        holds(&table, &what);
        if check_source(&table).number == 0 || check_target(&table).number == 0 {
            assert!(!is_text(&table), "{what}: the bytes are taken for text");
            accepted += 1;
        }
    }
    accepted
}

#[test]
fn accepted_sources() {
    assert_eq!(on_tables(81, Generator::accepted_source), TABLES);
}

#[test]
fn damaged_sources() {
    assert!(on_tables(82, Generator::damaged_source) < TABLES / 2);
}

#[test]
fn translations() {
    assert_eq!(on_tables(83, Generator::translated_target), TABLES);
}

#[test]
fn hand_made_targets() {
    assert_eq!(on_tables(84, Generator::hand_made_target), TABLES);
}

#[test]
fn damaged_targets() {
    assert!(on_tables(85, Generator::damaged_target) < TABLES / 2);
}

#[test]
fn random_records() {
    let accepted = on_tables(86, |generator| {
        let length = generator.random.index(40) * RECORD_BYTES;
        generator.random.bytes(length)
    });
    assert!(accepted < TABLES / 2);
}

const SKIP: &str = "1 40 0 0 0 0 0";

/// Texts that are not canonical, all of one table.
#[test]
fn every_spelling_of_a_record() {
    let table = read(SKIP.as_bytes()).expect("a table").table().to_vec();
    assert_eq!(table, [[40].as_slice(), &[0; 15]].concat());
    let comment = "#".repeat(511 - SKIP.len());
    let spellings = [
        format!("{SKIP}\n"),
        format!("\r\n{SKIP}\r\n\r\n"),
        format!("\u{FEFF}{SKIP}"),
        format!("# é\n\t{}\t# {SKIP}\n#", SKIP.replace(' ', "\t ")),
        format!("{SKIP}{comment}"),
        format!("{SKIP}{comment}\r\n"),
        "001 040 -0 00 0 0 -000".to_string(),
    ];
    for text in spellings {
        assert!(is_text(text.as_bytes()), "{text:?}");
        let back = read(text.as_bytes()).unwrap_or_else(|| panic!("{text:?}"));
        assert_eq!(back.table(), table, "{text:?}");
    }
}

#[test]
fn texts_that_are_refused() {
    let comment = "#".repeat(512 - SKIP.len());
    let refused = [
        format!("{SKIP}\r"),
        format!("{SKIP}\r\r\n"),
        "1 40\r0 0 0 0 0\n".to_string(),
        format!("{SKIP}\0\n"),
        format!("{SKIP} #\u{1B}[2J\n"),
        format!("# \u{7F}\n{SKIP}\n"),
        format!("{SKIP}{comment}\n"),
        format!("{SKIP}\n{SKIP}\n"),
        SKIP.replace("40", "+40"),
        SKIP.replace("40", "0x28"),
        SKIP.replace("40", "-40"),
        SKIP.replace("1 ", "1, "),
        format!("{SKIP} \u{FEFF}"),
    ];
    for text in refused {
        assert!(read(text.as_bytes()).is_none(), "{text:?}");
    }
}

/// `None` where the comment names nothing.
#[test]
fn comments_that_name_a_variable() {
    let comments = [
        ("# variable 1 is p", Some((1, "p"))),
        (
            "#variable 63  is\ta_longer_name_2",
            Some((63, "a_longer_name_2")),
        ),
        (
            "1 40 0 0 0 0 0 # variable 0 is inputs \r\n",
            Some((0, "inputs")),
        ),
        ("# variable 1 is a_name_too_long_", None),
        ("# variable 64 is p", None),
        ("# variable -1 is p", None),
        ("# variable +1 is p", None),
        ("# variable 1 isolated", None),
        ("# variable 1 is", None),
        ("# variable 1 is 2p", None),
        ("# variable 1 is _p", None),
        ("# variable 1 is p.", None),
        ("# variable 1 is p or q", None),
        ("# # variable 1 is p", None),
    ];
    for (text, named) in comments {
        let back = read(text.as_bytes()).unwrap_or_else(|| panic!("{text:?}"));
        let names = (0..64).map(|variable| (variable, back.name(variable)));
        let found: Vec<_> = names.filter(|(_, name)| !name.is_empty()).collect();
        assert_eq!(found, Vec::from_iter(named), "{text:?}");
    }
}
