//! `pack` and `unpack` by the program itself: through files and through the standard streams a table comes back.

use host::program::{recorder, Scratch};
use reference::generator::Generator;
use reference::limits::RECORD_BYTES;
use std::fs;

const TABLES: usize = 30;

/// Runs the program, which must end well, and returns what it wrote to its standard output.
fn piped(words: &[&str], input: &[u8]) -> Vec<u8> {
    let ran = recorder(words, input);
    assert_eq!((ran.status, ran.error.as_str()), (0, ""), "{words:?}");
    ran.output
}

/// The table through text and back, by pipes, by files, and by one file that is input and output at once.
fn comes_back(table: &[u8], what: &str) {
    let text = piped(&["unpack", "-", "-", "--bytes"], table);
    assert!(piped(&["pack", "-", "-"], &text) == table, "{what}");
    assert!(piped(&["unpack", "-", "-"], &text) == text, "{what}");
    let scratch = Scratch::new();
    let file = scratch.file("table", table);
    let file = file.to_str().expect("a path");
    piped(&["unpack", file, file, "--bytes", "--force"], &[]);
    assert!(fs::read(file).expect("a file") == text, "{what}");
    let bytes = scratch.path("bytes");
    piped(&["pack", file, bytes.to_str().expect("a path")], &[]);
    assert!(fs::read(bytes).expect("a file") == table, "{what}");
}

fn on_tables(seed: u64, make: fn(&mut Generator) -> Vec<u8>) {
    let mut generator = Generator::new(seed);
    for case in 0..TABLES {
        let mut table = make(&mut generator);
        table.truncate(table.len().min(4096 * RECORD_BYTES) / RECORD_BYTES * RECORD_BYTES);
        comes_back(&table, &format!("seed {seed}, case {case}"));
    }
}

#[test]
fn accepted_sources() {
    on_tables(92, Generator::accepted_source);
}

#[test]
fn damaged_sources() {
    on_tables(93, Generator::damaged_source);
}

#[test]
fn targets() {
    on_tables(94, Generator::target);
}

#[test]
fn damaged_targets() {
    on_tables(95, Generator::damaged_target);
}

/// An accepted table's bytes need no option, in either language.
#[test]
fn accepted_tables_are_told_by_their_bytes() {
    let mut generator = Generator::new(96);
    for _ in 0..TABLES {
        for table in [generator.accepted_source(), generator.target()] {
            let text = piped(&["unpack", "-", "-"], &table);
            assert!(text.starts_with(b"1 "), "{table:?}");
            assert_eq!(piped(&["pack", "-", "-"], &table), table);
        }
    }
}

#[test]
fn bytes_behind_the_last_record_are_not_lost_in_silence() {
    let ran = recorder(["unpack", "-", "-"], &[0; RECORD_BYTES + 1]);
    assert_eq!((ran.status, ran.output.len()), (65, 0));
    assert!(ran.error.contains("these are 17"), "{}", ran.error);
}

#[test]
fn a_file_that_exists_stays() {
    let scratch = Scratch::new();
    let file = scratch.file("kept", b"kept");
    for command in ["pack", "unpack", "translate"] {
        let ran = recorder(
            [command, "examples/P1.txt", file.to_str().expect("a path")],
            &[],
        );
        assert_eq!(ran.status, 73);
        assert!(
            ran.error.contains("exists; --force overwrites it"),
            "{}",
            ran.error
        );
        assert_eq!(fs::read(&file).expect("a file"), b"kept");
    }
}

#[test]
fn standard_input_is_read_once() {
    for words in [["check", "-", "-"], ["run", "-", "--inputs-file=-"]] {
        let ran = recorder(words, b"1 40 0 0 0 0 0\n");
        assert_eq!(ran.status, 64, "{words:?}");
        assert!(ran.error.contains("is named twice"), "{}", ran.error);
    }
}
