//! The tables and options on which the program is run.

use crate::program::{root, Scratch};
use reference::answer::PLAIN_ENDINGS;
use reference::generator::Generator;
use reference::host::{inputs, plain};
use std::collections::BTreeMap;
use std::fs;
use std::path::PathBuf;

/// A run as `tests/examples/expected` has it.
pub struct Example {
    pub file: String,
    pub inputs: String,
    pub fuel: String,
    pub number: i64,
}

impl Example {
    /// The command on the example, with what a run is given.
    pub fn words<'a>(&'a self, command: &'a str) -> Vec<&'a str> {
        vec![
            command,
            &self.file,
            "--inputs",
            &self.inputs,
            "--fuel",
            &self.fuel,
        ]
    }
}

pub fn examples() -> Vec<Example> {
    let text = fs::read_to_string(root().join("tests/examples/expected")).expect("a file");
    let example = |line: &str| {
        let words: Vec<&str> = line.split_whitespace().collect();
        Example {
            file: format!("examples/{}.txt", words[0]),
            inputs: words[1].to_string(),
            fuel: words[2].to_string(),
            number: words[3].parse().expect("an ending"),
        }
    };
    let lines = text.lines().filter(|line| !line.starts_with('#'));
    lines.map(example).collect()
}

/// Tables that are refused as 1 to 8, by number, as bytes: some begin as a text does.
pub fn refused() -> impl Iterator<Item = (i64, String)> {
    (1..=8).map(|number| (number, format!("tests/listing/refused_{number}.table")))
}

/// Seeded sources, one for every ending of the run on the inputs 7 and 9 with fuel 20. 31, all names given, takes more
/// fuel.
pub fn endings(scratch: &Scratch) -> BTreeMap<i64, String> {
    let mut generator = Generator::new(91);
    let mut found = BTreeMap::new();
    while found.len() < PLAIN_ENDINGS.len() - 1 {
        let table = generator.accepted_source();
        let number = plain(&table, &inputs(&[7, 9]), 20).0.number;
        let keep = || named(scratch.file(format!("ending_{number}"), &table));
        found.entry(i64::from(number)).or_insert_with(keep);
    }
    found
}

/// Target tables with the endings that no translation has.
pub fn hand_made(scratch: &Scratch) -> [(i64, String); 2] {
    let stored_twice =
        "1 10 0 0 0 0 0\n2 60 0 1 0 0 9\n3 1 0 0 0 0 1\n4 61 1 3 0 0 9\n5 68 0 0 0 0 9\n\
                        6 44 0 4 5 0 9\n7 44 0 2 6 0 9\n";
    let empty = "1 67 5 0 0 0 3\n";
    [
        (
            48,
            named(scratch.file("ending_48", stored_twice.as_bytes())),
        ),
        (49, named(scratch.file("ending_49", empty.as_bytes()))),
    ]
}

fn named(path: PathBuf) -> String {
    path.into_os_string()
        .into_string()
        .expect("a path in letters")
}
