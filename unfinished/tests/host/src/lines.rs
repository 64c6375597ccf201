//! What the program prints with `--json`, line by line, each held to the schema.

use crate::json::{parsed, Value};
use crate::program::{recorder, root, Ran};
use crate::schema::Schema;
use std::ffi::{OsStr, OsString};
use std::fs;

pub fn schema() -> Schema {
    Schema::new(&fs::read_to_string(root().join("docs/recorder.schema.json")).expect("the schema"))
}

/// What a command printed.
pub struct Printed {
    pub ran: Ran,
    pub lines: Vec<Value>,
}

impl Printed {
    pub fn last(&self) -> &Value {
        self.lines
            .last()
            .unwrap_or_else(|| panic!("no line: {:?}", self.ran))
    }

    /// The number of the last line's answer.
    pub fn number(&self) -> i64 {
        let number = self
            .last()
            .get("answer")
            .and_then(|answer| answer.get("number"));
        number
            .and_then(Value::number)
            .unwrap_or_else(|| panic!("no answer: {:?}", self.last()))
    }
}

/// Runs a command with `--json` and validates every line; the lines of a table that goes to standard output stand on
/// standard error.
pub fn printed<Word: AsRef<OsStr>>(words: &[Word]) -> Printed {
    let mut all: Vec<OsString> = words.iter().map(|word| word.as_ref().to_owned()).collect();
    let to_output = all.last().is_some_and(|word| word == "-");
    all.push("--json".into());
    let ran = recorder(&all, &[]);
    let text = if to_output {
        ran.error.clone()
    } else {
        String::from_utf8(ran.output.clone()).unwrap_or_else(|error| panic!("{all:?}: {error}"))
    };
    let command = all[0].to_str().expect("a command").trim_start_matches("--");
    let lines = validated(&text, command, &format!("{all:?}"));
    Printed { ran, lines }
}

/// The objects of a text, one a line.
fn validated(text: &str, command: &str, what: &str) -> Vec<Value> {
    assert!(
        text.is_empty() || text.ends_with('\n'),
        "{what}: the last line has no end"
    );
    let schema = schema();
    let line = |line: &str| {
        let value = parsed(line).unwrap_or_else(|error| panic!("{what}: {error} in {line}"));
        let matched = schema.check(&value);
        matched.unwrap_or_else(|error| panic!("{what}: {error} in {line}"));
        assert_eq!(
            value.get("command").and_then(Value::text),
            Some(command),
            "{what}: {line}"
        );
        value
    };
    text.lines().map(line).collect()
}

/// Runs a command whose status is the number of the last line's answer, which is this.
pub fn told<Word: AsRef<OsStr>>(words: &[Word], number: i64) -> Printed {
    let found = printed(words);
    let words: Vec<&OsStr> = words.iter().map(AsRef::as_ref).collect();
    assert_eq!(found.number(), number, "{words:?}");
    assert_eq!(i64::from(found.ran.status), number, "{words:?}");
    found
}

/// A text of a line.
pub fn text<'a>(value: &'a Value, key: &str) -> &'a str {
    value
        .get(key)
        .and_then(Value::text)
        .unwrap_or_else(|| panic!("no {key} in {value:?}"))
}
