//! `show`, `trace`, `draw` and `--version` with `--json`.

use host::json::Value;
use host::lines::{printed, text, told, Printed};
use host::program::Scratch;
use host::tables::{endings, examples, hand_made, refused};
use std::fs;

/// The stops are counted from 1, and the last line tells the end.
fn traced(words: &[&str], number: i64) -> Printed {
    let found = told(words, number);
    let before = &found.lines[..found.lines.len() - 1];
    let stops = before
        .iter()
        .map(|line| line.get("stop").and_then(Value::number));
    assert!(stops.eq((1..).map(Some).take(before.len())), "{words:?}");
    assert_eq!(text(found.last(), "at"), "end", "{words:?}");
    found
}

#[test]
fn traces_of_the_examples() {
    for example in examples() {
        let words = [&example.words("trace")[..], &["--stops", "10"]].concat();
        let found = traced(&words, example.number);
        assert!((1..=11).contains(&found.lines.len()), "{words:?}");
    }
}

#[test]
fn traces_of_every_ending() {
    let scratch = Scratch::new();
    for (number, file) in endings(&scratch) {
        traced(&["trace", &file, "--fuel", "20", "--stops", "10"], number);
    }
    for (number, file) in hand_made(&scratch) {
        traced(&["trace", &file, "--target"], number);
    }
}

/// Every statement of a target table is told with the source statement that it came from.
#[test]
fn tables_in_words() {
    let scratch = Scratch::new();
    for example in examples() {
        let target = scratch.path("target");
        let target = target.to_str().expect("a path");
        told(&["translate", &example.file, target, "--force"], 0);
        for words in [
            &["show", example.file.as_str()][..],
            &["show", "--target", target],
        ] {
            let found = printed(words);
            assert_eq!(found.ran.status, 0, "{words:?}");
            assert!(!text(found.last(), "text").is_empty(), "{words:?}");
            let is_of = found.lines.iter().any(|line| line.get("of").is_some());
            assert_eq!(is_of, words.len() == 3, "{words:?}");
        }
    }
}

/// The words of `draw` on an example, with a picture's path among them.
fn drawn(words: &[&str], scratch: &Scratch) -> Vec<String> {
    let picture = scratch
        .path("picture.svg")
        .to_str()
        .expect("a path")
        .to_string();
    let mut all: Vec<String> = words.iter().map(ToString::to_string).collect();
    all.insert(2, picture);
    all.push("--force".to_string());
    all
}

fn is_picture(scratch: &Scratch) -> bool {
    fs::read_to_string(scratch.path("picture.svg"))
        .expect("a picture")
        .contains("<svg")
}

#[test]
fn pictures_of_the_examples() {
    for example in examples() {
        let scratch = Scratch::new();
        let found = printed(&drawn(&example.words("draw"), &scratch));
        assert_eq!((found.number(), found.ran.status), (example.number, 0));
        assert!(is_picture(&scratch), "{}", example.file);
    }
}

#[test]
fn a_picture_on_the_way() {
    let scratch = Scratch::new();
    let found = printed(&drawn(
        &["draw", "examples/two-assertions.txt", "--before", "29"],
        &scratch,
    ));
    assert_eq!(found.last().get("before"), Some(&Value::Number(29)));
    assert!(is_picture(&scratch));
}

#[test]
fn refused_tables() {
    for (number, file) in refused() {
        let scratch = Scratch::new();
        told(&["show", &file, "--bytes"], number);
        traced(&["trace", &file, "--bytes"], number);
        told(&drawn(&["draw", &file, "--bytes"], &scratch), number);
        assert!(!scratch.path("picture.svg").exists());
    }
}

#[test]
fn refused_inputs() {
    let scratch = Scratch::new();
    traced(&["trace", "examples/P1.txt", "--inputs", ""], 9);
    told(
        &drawn(&["draw", "examples/P1.txt", "--inputs", ""], &scratch),
        9,
    );
}

#[test]
fn the_version() {
    let found = printed(&["--version"]);
    assert_eq!((found.ran.status, found.lines.len()), (0, 1));
    assert_eq!(found.last().get("header"), found.last().get("library"));
}
