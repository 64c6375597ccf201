//! How the program reads tables: as text or as bytes, whatever a file is called, and what it tells where it cannot.

use host::program::{recorder, Ran, Scratch};
use std::fs;

const TEXT: &[u8] = b"1 40 0 0 0 0 0\n";
const BYTES: [u8; 16] = [40, 0, 0, 0, 0, 0, 0, 0, 0, 0, 0, 0, 0, 0, 0, 0];

fn checked(content: &[u8], options: &[&str]) -> Ran {
    recorder([&["check", "-"], options].concat(), content)
}

#[test]
fn a_file_is_told_by_its_content() {
    let scratch = Scratch::new();
    for (name, content) in [
        ("text.table", TEXT),
        ("bytes.txt", &BYTES),
        ("text", TEXT),
        ("bytes", &BYTES),
    ] {
        let file = scratch.file(name, content);
        let ran = recorder(["check".as_ref(), file.as_os_str()], &[]);
        assert_eq!(
            (ran.status, ran.output.as_slice()),
            (0, &b"check: accepted, 1 record\n"[..]),
            "{name}"
        );
    }
}

/// Text read as bytes has no length of a table's; bytes read as text have a NUL.
#[test]
fn an_option_decides_otherwise() {
    assert_eq!(checked(TEXT, &["--text"]).status, 0);
    assert_eq!(checked(&BYTES, &["--bytes"]).status, 0);
    assert_eq!(checked(TEXT, &["--bytes"]).status, 1);
    let ran = checked(&BYTES, &["--text"]);
    assert_eq!(ran.status, 65);
    assert!(
        ran.error.contains("line 1: column 2: a NUL (byte 0)"),
        "{}",
        ran.error
    );
}

#[test]
fn what_no_text_has_is_told_by_line_and_column() {
    let places = [
        ("# \0", "line 1: column 3: a NUL (byte 0)"),
        (
            "\n\n1 40\u{1B}",
            "line 3: column 5: a control character (byte 27)",
        ),
        (
            "\u{FEFF}# \u{7F}",
            "line 1: column 3: a control character (byte 127)",
        ),
        (
            "1 40 0 0 0 0 0\r2 40 0 0 0 0 0\r",
            "line 1: column 15: a control character (byte 13)",
        ),
        (
            "1 40 0 0 0 0 0\r",
            "line 1: column 15: a control character (byte 13)",
        ),
    ];
    for (text, place) in places {
        let ran = checked(text.as_bytes(), &[]);
        assert_eq!((ran.status, ran.output.len()), (65, 0), "{text:?}");
        assert!(ran.error.contains(place), "{text:?}: {}", ran.error);
    }
}

/// The longest line, and one character more, without and with a carriage return.
#[test]
fn lines_have_511_characters() {
    for (length, end, status) in [
        (511, "\n", 0),
        (511, "\r\n", 0),
        (511, "", 0),
        (512, "\n", 65),
        (512, "", 65),
    ] {
        let text = format!("{:#<length$}{end}", "1 40 0 0 0 0 0 ");
        let ran = checked(text.as_bytes(), &[]);
        assert_eq!(
            ran.status, status,
            "{length} characters and {end:?}: {}",
            ran.error
        );
    }
}

/// As many records as the host keeps are handed to the checker, which refuses them; one more is no table.
#[test]
fn more_records_than_any_table_has() {
    for (records, status) in [(4096, 6), (4097, 2), (4100, 2), (4101, 65)] {
        let text: String = (1..=records)
            .map(|number| format!("{number} 40 0 0 0 0 1\n"))
            .collect();
        assert_eq!(
            checked(text.as_bytes(), &["--target"]).status,
            status,
            "{records} as text"
        );
        let bytes = [&BYTES[..8], &[1, 0, 0, 0, 0, 0, 0, 0]]
            .concat()
            .repeat(records);
        assert_eq!(
            checked(&bytes, &["--target"]).status,
            status,
            "{records} as bytes"
        );
    }
}

#[test]
fn what_is_no_file_is_not_read() {
    for (path, words) in [
        ("examples", "cannot read examples: "),
        ("nowhere", "cannot open nowhere: "),
    ] {
        let ran = recorder(["check", path], &[]);
        assert_eq!((ran.status, ran.output.len()), (66, 0));
        assert!(ran.error.contains(words), "{}", ran.error);
    }
}

/// Names of variables stay with the text: the table's bytes are the same.
#[test]
fn names_are_no_part_of_the_table() {
    let scratch = Scratch::new();
    let file = scratch.path("bytes");
    let text = [b"# variable 1 is p\n", TEXT].concat();
    let ran = recorder(["pack", "-", file.to_str().expect("a path")], &text);
    assert_eq!(ran.status, 0, "{}", ran.error);
    assert_eq!(fs::read(file).expect("a file"), BYTES);
}
