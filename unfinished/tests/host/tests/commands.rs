//! `check`, `list`, `translate`, `run`, `watch`, `demo`, `pack` and `unpack` with `--json`: each line is an object of
//! one of the schema's forms, and says what the status says.

use host::json::Value;
use host::lines::{printed, text, told};
use host::program::{root, Scratch};
use host::tables::{endings, examples, hand_made, refused};
use std::collections::BTreeSet;
use std::ffi::OsString;
use std::fs;
use std::os::unix::ffi::OsStringExt;

#[test]
fn runs_of_the_examples() {
    for example in examples() {
        for command in ["run", "watch"] {
            let found = told(&example.words(command), example.number);
            assert_eq!(found.lines.len(), 1);
            assert_eq!(text(found.last(), "file"), example.file);
        }
        let demo = printed(&example.words("demo"));
        assert_eq!((demo.ran.status, demo.number()), (0, example.number));
        assert_eq!(demo.last().get("agree"), Some(&Value::Truth(true)));
    }
}

#[test]
fn tables_of_the_examples() {
    for example in examples() {
        let file = &example.file;
        assert_eq!(told(&["check", file], 0).lines.len(), 1);
        let translated = told(&["translate", file], 0);
        let answer = translated.last().get("answer").expect("an answer");
        let count = answer.get("record").and_then(Value::number);
        let listed = printed(&["list", file]);
        assert_eq!(listed.ran.status, 0);
        assert_eq!(listed.last().get("number").and_then(Value::number), count);
        assert_eq!(Some(listed.lines.len() as i64), count);
    }
}

#[test]
fn target_tables() {
    let scratch = Scratch::new();
    for example in examples() {
        let target = scratch.path("target");
        let target = target.to_str().expect("a path");
        told(&["translate", &example.file, target, "--force"], 0);
        told(&["check", "--target", target], 0);
        let mut words = example.words("watch");
        words[1] = target;
        words.push("--target");
        told(&words, example.number);
    }
}

#[test]
fn every_ending() {
    let scratch = Scratch::new();
    let mut numbers: BTreeSet<i64> = examples().iter().map(|example| example.number).collect();
    for (number, file) in endings(&scratch) {
        for command in ["run", "watch"] {
            told(&[command, &file, "--fuel", "20"], number);
        }
        numbers.insert(number);
    }
    for (number, file) in hand_made(&scratch) {
        told(&["watch", &file, "--target"], number);
        numbers.insert(number);
    }
    let all = [0].into_iter().chain(30..=33).chain(40..=50);
    assert!(numbers.into_iter().eq(all));
}

#[test]
fn refused_tables() {
    for (number, file) in refused() {
        for command in ["check", "list", "translate", "run", "watch", "demo"] {
            told(&[command, &file, "--bytes"], number);
        }
    }
}

#[test]
fn refused_inputs_and_buffers() {
    let file = "examples/P1.txt";
    for command in ["run", "watch", "demo"] {
        told(&[command, file, "--inputs", ""], 9);
    }
    told(&["translate", file, "--output-bytes", "0"], 20);
    told(&["run", file, "--memory-bytes", "0"], 21);
    told(&["watch", file, "--memory-bytes", "0"], 21);
    told(&["watch", file, "--observation-bytes", "0"], 22);
}

#[test]
fn several_files() {
    let files = [
        "examples/P1.txt",
        "tests/listing/refused_3.table",
        "examples/P2.txt",
    ];
    for command in ["check", "list"] {
        let found = printed(&[&[command], &files[..]].concat());
        assert_eq!(found.ran.status, 3);
        let mut named: Vec<&str> = found.lines.iter().map(|line| text(line, "file")).collect();
        named.dedup();
        assert_eq!(named, files);
    }
}

#[test]
fn a_file_that_is_not_there_has_no_line() {
    let found = printed(&["check", "nowhere", "examples/P1.txt"]);
    assert_eq!((found.ran.status, found.lines.len()), (66, 1));
    assert!(
        found.ran.error.contains("cannot open nowhere"),
        "{}",
        found.ran.error
    );
}

#[test]
fn tables_written() {
    let scratch = Scratch::new();
    let [bytes, table] = ["bytes", "table"].map(|name| scratch.path(name));
    let [bytes, table] = [&bytes, &table].map(|path| path.to_str().expect("a path"));
    for words in [["pack", "examples/P1.txt", bytes], ["unpack", bytes, table]] {
        let found = printed(&words);
        assert_eq!((found.ran.status, found.lines.len()), (0, 1));
        assert_eq!(text(found.last(), "output"), words[2]);
        assert_eq!(found.last().get("records"), Some(&Value::Number(5)));
    }
    for command in ["pack", "unpack", "translate"] {
        let found = printed(&[command, "examples/P1.txt", "-"]);
        assert_eq!((found.ran.status, found.lines.len()), (0, 1));
        assert!(!found.ran.output.is_empty());
    }
}

/// A literal of 64 bits in the listing and in the cell that it is stored in.
#[test]
fn numbers_are_exact() {
    let scratch = Scratch::new();
    for number in [i64::MIN, i64::MAX, (1 << 53) + 1] {
        let table = format!("1 10 0 0 0 0 0\n2 1 0 0 0 0 {number}\n3 41 0 1 2 0 0\n");
        let file = scratch.file("table", table.as_bytes());
        let file = file.to_str().expect("a path");
        let listed = printed(&["list", file]);
        let mut literals = listed.lines.iter().map(|line| line.get("literal"));
        assert!(
            literals.any(|literal| literal == Some(&Value::Number(number))),
            "{number}"
        );
        let ran = told(&["run", file], 0);
        let memory = format!("{:?}", ran.last().get("execution_memory"));
        assert!(memory.contains(&format!("Text(\"{number}\")")), "{memory}");
    }
}

/// Quotes, control characters and bytes that are no UTF-8, the last as U+FFFD.
#[test]
fn names_of_files() {
    let scratch = Scratch::new();
    let name = OsString::from_vec(b"a\"b\\c\n\x7F\xC3\xA9\xFF\xE2\x82.txt".to_vec());
    let table = fs::read(root().join("examples/P1.txt")).expect("a table");
    let found = told(
        &["check".as_ref(), scratch.file(&name, &table).as_os_str()],
        0,
    );
    let name = text(found.last(), "file");
    assert!(
        name.ends_with("/a\"b\\c\n\u{7F}é\u{FFFD}\u{FFFD}\u{FFFD}.txt"),
        "{name:?}"
    );
}
