//! The stored tables and texts of tests/listing are those of the second implementation, and none is stored besides.

use reference::listing::listing;
use reference::listings::tables;
use std::collections::BTreeSet;
use std::path::{Path, PathBuf};

fn folder() -> PathBuf {
    Path::new(env!("CARGO_MANIFEST_DIR")).join("../listing")
}

fn stored(name: &str, extension: &str) -> Vec<u8> {
    let path = folder().join(name).with_extension(extension);
    std::fs::read(&path).unwrap_or_else(|error| panic!("{}: {error}", path.display()))
}

#[test]
fn every_stored_table_and_text_is_derived() {
    for (name, table) in tables() {
        assert!(stored(name, "table") == table, "{name}.table");
        let text = String::from_utf8(stored(name, "text")).unwrap();
        assert_eq!(text, listing(&table), "{name}.text");
    }
}

#[test]
fn nothing_else_is_stored() {
    let names: BTreeSet<String> = tables().iter().map(|(name, _)| name.to_string()).collect();
    for extension in ["table", "text"] {
        let found: BTreeSet<String> = std::fs::read_dir(folder())
            .unwrap()
            .map(|entry| entry.unwrap().path())
            .filter(|path| path.extension().is_some_and(|end| end == extension))
            .map(|path| path.file_stem().unwrap().to_string_lossy().into_owned())
            .collect();
        assert_eq!(found, names, "{extension}");
    }
}

#[test]
fn each_refusal_of_a_source_table_is_among_them() {
    for number in 1..=8 {
        let name = format!("refused_{number}");
        let (_, table) = tables().into_iter().find(|(other, _)| *other == name).unwrap();
        assert!(listing(&table).starts_with(&format!("{number} ")), "{name}");
    }
    for (name, line) in [("no_input", "1 0\n"), ("bytes_4112", "2 0\n"), ("bytes_4113", "1 0\n")] {
        assert_eq!(String::from_utf8(stored(name, "text")).unwrap(), line);
    }
}

/// Kinds that occur in a source table.
fn kinds(table: &[u8]) -> BTreeSet<u8> {
    table.chunks(16).map(|record| record[0]).collect()
}

#[test]
fn every_kind_has_every_kind() {
    let (_, table) = tables().into_iter().find(|(name, _)| *name == "every_kind").unwrap();
    let language = [1..=5, 10..=11, 20..=24, 30..=35, 40..=48];
    assert_eq!(kinds(&table), language.into_iter().flatten().collect());
    assert!(listing(&table).lines().count() > table.len() / 16);
}
