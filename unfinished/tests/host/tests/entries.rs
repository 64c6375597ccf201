//! `archive` and `verify` with `--json`.

use host::json::Value;
use host::lines::{printed, Printed};
use host::program::Scratch;
use host::tables::{examples, refused};
use std::fs;
use std::path::{Path, PathBuf};

/// Entries of the first examples.
fn entries(scratch: &Scratch, count: usize) -> Vec<String> {
    let mut folders = Vec::new();
    for (at, example) in examples().iter().take(count).enumerate() {
        let entry = scratch
            .path(format!("entry-{at}"))
            .to_str()
            .expect("a path")
            .to_string();
        let words = example.words("archive");
        let found = printed(&[&[words[0], &entry, words[1]], &words[2..]].concat());
        assert_eq!(found.number(), example.number, "{}", example.file);
        assert_eq!(
            found.last().get("entry").and_then(Value::text),
            Some(entry.as_str())
        );
        folders.push(entry);
    }
    folders
}

fn verified(entries: &[String]) -> Printed {
    let words = [&["verify".to_string()], entries].concat();
    printed(&words)
}

fn summary(found: &Printed) -> [Option<i64>; 3] {
    ["entries", "hold", "differ"].map(|key| found.last().get(key).and_then(Value::number))
}

#[test]
fn entries_hold() {
    let scratch = Scratch::new();
    let entries = entries(&scratch, 40);
    let count = entries.len() as i64;
    let found = verified(&entries);
    assert_eq!(found.ran.status, 0, "{}", found.ran.error);
    assert_eq!(summary(&found), [Some(count), Some(count), Some(0)]);
    assert_eq!(found.lines.len(), entries.len() + 1);
}

/// The files of a folder that hold something.
fn files(folder: &Path) -> Vec<(PathBuf, Vec<u8>)> {
    let entries = fs::read_dir(folder).expect("a folder");
    let paths = entries.map(|entry| entry.expect("an entry").path());
    let files = paths.filter(|path| path.is_file()).map(|path| {
        let content = fs::read(&path).expect("a file");
        (path, content)
    });
    files.filter(|(_, content)| !content.is_empty()).collect()
}

/// One file after another with another byte, and cut short.
#[test]
fn damaged_entries_differ() {
    let scratch = Scratch::new();
    let entries = entries(&scratch, 2);
    let files = files(Path::new(&entries[0]));
    assert!(!files.is_empty());
    for (file, content) in files {
        let mut other = content.clone();
        other[content.len() / 2] ^= 1;
        for damaged in [&other[..], &content[..content.len() - 1]] {
            fs::write(&file, damaged).expect("written");
            let found = verified(&entries);
            assert_eq!(found.ran.status, 71, "{}", file.display());
            assert_eq!(
                summary(&found),
                [Some(2), Some(1), Some(1)],
                "{}",
                file.display()
            );
        }
        fs::write(&file, &content).expect("written");
    }
    assert_eq!(verified(&entries).ran.status, 0);
}

#[test]
fn refused_tables() {
    for (number, file) in refused() {
        let scratch = Scratch::new();
        let entry = scratch.path("entry");
        let found = printed(&["archive", entry.to_str().expect("a path"), &file, "--bytes"]);
        assert_eq!(found.number(), number, "{file}");
    }
}
