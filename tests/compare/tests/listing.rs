//! The compiled listing program prints what the second implementation lists, for inputs of any length.

use reference::generator::Generator;
use reference::listing::listing;
use std::io::Write;
use std::process::{Command, Stdio};

const TABLES: u64 = 500;

/// What the program prints for an input, which it gets in two pieces.
fn printed(input: &[u8], cut: usize) -> String {
    let program = concat!(env!("CARGO_MANIFEST_DIR"), "/../../crates/listing/out/listing");
    let mut child = Command::new(program)
        .stdin(Stdio::piped())
        .stdout(Stdio::piped())
        .spawn()
        .expect("crates/listing/out/listing runs");
    let mut stdin = child.stdin.take().unwrap();
    stdin.write_all(&input[..cut]).unwrap();
    stdin.write_all(&input[cut..]).unwrap();
    drop(stdin);
    let output = child.wait_with_output().unwrap();
    assert!(output.status.success());
    String::from_utf8(output.stdout).unwrap()
}

fn compare(seed: u64, make: fn(&mut Generator) -> Vec<u8>) {
    let mut generator = Generator::new(seed);
    for case in 0..TABLES {
        let table = make(&mut generator);
        let cut = table.len() / 3;
        assert_eq!(printed(&table, cut), listing(&table), "seed {seed}, case {case}, table {table:?}");
    }
}

#[test]
fn accepted_sources() {
    compare(41, |generator| generator.accepted_source());
}

#[test]
fn damaged_sources() {
    compare(42, |generator| generator.damaged_source());
}

/// Lengths about the limit of 256 records, about the bytes that are kept, and about those that are read at once.
#[test]
fn inputs_of_any_length() {
    let base = [4096, 4112, 4128, 8192, 65_536, 69_648, 131_072, 1_048_576];
    for length in base.iter().flat_map(|base| base - 17..=base + 17) {
        let input = vec![40; length];
        assert_eq!(printed(&input, length / 3), listing(&input), "{length} bytes");
    }
}
