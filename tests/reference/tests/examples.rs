//! The tables of examples/ end as tests/examples/expected says.

use reference::answer::Answer;
use reference::host::{self, inputs};
use reference::record::{table, Record};
use std::collections::BTreeSet;
use std::path::{Path, PathBuf};

fn root() -> PathBuf {
    Path::new(env!("CARGO_MANIFEST_DIR")).join("../..")
}

/// The lines of a file without comments, as words.
fn lines(path: &Path) -> Vec<Vec<String>> {
    let text = std::fs::read_to_string(path).expect("a file");
    let words = |line: &str| -> Vec<String> {
        let (before, _) = line.split_once('#').unwrap_or((line, ""));
        before.split_whitespace().map(str::to_string).collect()
    };
    text.lines()
        .map(words)
        .filter(|words| !words.is_empty())
        .collect()
}

/// A table as text: number, kind, mark, A, B, C, literal.
fn example(name: &str) -> Vec<u8> {
    let path = root().join("examples").join(name).with_extension("txt");
    let record = |(at, words): (usize, Vec<String>)| {
        let fields: Vec<i64> = words
            .iter()
            .map(|word| word.parse().expect("a number"))
            .collect();
        assert_eq!((fields.len(), fields[0]), (7, at as i64 + 1), "{name}");
        Record {
            kind: fields[1] as u8,
            mark: fields[2] as u8,
            a: fields[3] as u16,
            b: fields[4] as u16,
            c: fields[5] as u16,
            literal: fields[6],
        }
    };
    let records: Vec<Record> = lines(&path).into_iter().enumerate().map(record).collect();
    table(&records)
}

/// Inputs, fuel and the ending of a row of `expected`.
fn run(row: &[String]) -> (Answer, Answer) {
    let values: Vec<i64> = row[1]
        .split(',')
        .map(|input| input.parse().expect("an input"))
        .collect();
    let numbers: Vec<u32> = row[2..]
        .iter()
        .map(|word| word.parse().expect("a number"))
        .collect();
    let [fuel, number, statement, left, free] = numbers[..] else {
        panic!("{row:?}")
    };
    let (answer, _) = host::both(&example(&row[0]), &inputs(&values), fuel);
    (answer, Answer::ending(number, statement, left, free))
}

#[test]
fn both_runs_of_every_example_end_as_expected() {
    let expected = lines(&root().join("tests/examples/expected"));
    let mut run_here = BTreeSet::new();
    for row in &expected {
        let (answer, written) = run(row);
        assert_eq!(answer, written, "{}", row[0]);
        run_here.insert(format!("{}.txt", row[0]));
    }
    let files = std::fs::read_dir(root().join("examples")).expect("a folder");
    let names = files.map(|file| {
        file.expect("a file")
            .file_name()
            .into_string()
            .expect("a name")
    });
    let tables: BTreeSet<String> = names.filter(|name| name.ends_with(".txt")).collect();
    assert_eq!(run_here, tables);
}
