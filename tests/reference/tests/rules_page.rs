//! The examples of docs/RULES.md come out as its section 15 says.

use reference::host::{block, cell, inputs, plain, translated, watched};
use reference::listing::listing;
use reference::record::{table, Record};
use reference::Answer;

const PAGE: &str = include_str!("../../../docs/RULES.md");

/// A program of the page, the settings of its letters and of the fuel, and what the page says of it.
struct Example {
    label: String,
    program: String,
    settings: String,
    outcome: String,
}

/// The indented lines of section 15, without their indent.
fn indented() -> impl Iterator<Item = &'static str> {
    let (_, section) = PAGE.split_once("## 15 ").expect("a section 15");
    section.lines().filter_map(|line| line.strip_prefix("    "))
}

fn is_example(line: &str) -> bool {
    line.contains('|') || line.contains("->")
}

/// A line without a further indent begins a program; each arrow is an example of it.
fn examples() -> Vec<Example> {
    let mut found = Vec::new();
    let (mut label, mut program) = (String::new(), String::new());
    for line in indented().filter(|line| is_example(line)) {
        let (before, outcome) = match line.split_once("->") {
            Some((before, outcome)) => (before, Some(outcome)),
            None => (line, None),
        };
        let mut settings = "";
        if let Some((first, rest)) = before.split_once(' ').filter(|_| !line.starts_with(' ')) {
            (label, program) = (first.to_string(), rest.to_string());
        } else if before.contains('|') {
            program.push_str(before);
        } else {
            settings = before.trim();
        }
        found.extend(outcome.map(|outcome| Example {
            label: label.clone(),
            program: program.clone(),
            settings: settings.to_string(),
            outcome: outcome.trim().to_string(),
        }));
    }
    found
}

impl Example {
    fn setting(&self, name: &str) -> Option<i64> {
        let mut settings = self.settings.split(", ").filter_map(|s| s.split_once(' '));
        let (_, value) = settings.find(|(letter, _)| *letter == name)?;
        Some(value.parse().expect("a number"))
    }

    fn number(&self, text: &str) -> i64 {
        let written = text.parse().ok().or_else(|| self.setting(text));
        written.unwrap_or_else(|| panic!("{}: what is {text}?", self.label))
    }

    fn record(&self, text: &str) -> Record {
        let mut words = text.split_whitespace();
        let mut record = Record {
            kind: self.number(words.next().expect("a kind")) as u8,
            ..Record::default()
        };
        for word in words {
            let (field, value) = word.split_at(1);
            let value = self.number(value);
            match field {
                "m" => record.mark = value as u8,
                "A" => record.a = value as u16,
                "B" => record.b = value as u16,
                "C" => record.c = value as u16,
                "=" => record.literal = value,
                _ => panic!("{}: no field {field}", self.label),
            }
        }
        record
    }

    fn table(&self) -> Vec<u8> {
        let records = self.program.split('|').map(|text| self.record(text));
        table(&records.collect::<Vec<_>>())
    }

    /// The answer and both memories; a source table is run both ways where it is accepted.
    fn run(&self) -> (Answer, Vec<u8>, Vec<u8>) {
        let (table, inputs) = (self.table(), inputs(&[7, 9]));
        let fuel = self.setting("fuel").unwrap_or(10) as u32;
        if self.label.starts_with('W') {
            return watched(&table, &inputs, fuel);
        }
        let (answer, memory) = plain(&table, &inputs, fuel);
        let Ok(target) = translated(&table) else {
            return (answer, memory, Vec::new());
        };
        let (same, second, observation) = watched(&target, &inputs, fuel);
        assert_eq!((answer, &memory), (same, &second), "{}", self.label);
        (answer, memory, observation)
    }

    /// The answer, and every fact behind it.
    fn hold(&self) {
        let (answer, memory, observation) = self.run();
        let what = format!("{} {}", self.label, self.settings);
        let mut facts = self.outcome.split("; ");
        let told = [answer.number, answer.record, answer.fuel, answer.free_cells];
        assert_eq!(facts.next(), Some(spaced(&told).as_str()), "{what}");
        for fact in facts {
            let words: Vec<&str> = fact.split(' ').collect();
            let at = words[1].parse().expect("a cell or a name");
            let (found, told) = match words[2..] {
                ["holds", ..] => (integer(&memory, at).to_string(), &words[3..]),
                ["is", "observed", ..] => (spaced(block(&observation, at)), &words[4..]),
                ["is", ..] if words[0] == "cell" => (spaced(cell(&memory, at)), &words[3..]),
                ["is", ..] => (spaced(block(&memory, at)), &words[3..]),
                _ => panic!("{what}: {fact}"),
            };
            assert_eq!(found, told.join(" "), "{what}: {fact}");
        }
    }
}

fn spaced(numbers: &[impl ToString]) -> String {
    let texts: Vec<String> = numbers.iter().map(ToString::to_string).collect();
    texts.join(" ")
}

/// The integer in a cell.
fn integer(memory: &[u8], at: usize) -> i64 {
    let cell = cell(memory, at);
    assert_eq!(cell[0], 2, "cell {at} holds an integer");
    i64::from_le_bytes(cell[8..].try_into().expect("8 bytes"))
}

#[test]
fn every_example_of_the_page() {
    let examples = examples();
    for label in ["P1", "P2", "P5", "P8", "P10", "R1", "E5", "F7", "W4"] {
        assert!(examples.iter().any(|e| e.label == label), "{label} is gone");
    }
    examples.iter().for_each(Example::hold);
}

/// P1's listing on the left, E1's on the right.
#[test]
fn the_listings_of_the_page() {
    let lines: Vec<&str> = indented().filter(|line| !is_example(line)).collect();
    let column = |from: usize, to: usize| -> String {
        let texts = lines.iter().map(|line| line.get(from..to.min(line.len())));
        let texts = texts.filter_map(|text| text.map(str::trim).filter(|text| !text.is_empty()));
        texts.map(|text| format!("{text}\n")).collect()
    };
    for (label, told) in [("P1", column(0, 36)), ("E1", column(36, usize::MAX))] {
        let examples = examples();
        let example = examples.iter().find(|e| e.label == label).expect(label);
        assert_eq!(told, listing(&example.table()), "{label}");
    }
}
