//! The parser and the validator themselves: what they accept, and that they refuse what is damaged.

use host::json::{parsed, Value};
use host::lines::schema;
use host::schema::Schema;

/// A line of every form that the schema has, as the program prints it.
const LINES: &str = include_str!("forms.jsonl");

fn lines() -> Vec<Value> {
    LINES
        .lines()
        .map(|line| parsed(line).expect(line))
        .collect()
}

#[test]
fn every_form_is_matched_once() {
    let schema = schema();
    for line in lines() {
        assert_eq!(schema.check(&line), Ok(()), "{line:?}");
    }
}

#[test]
fn every_command_has_a_line() {
    for form in schema().forms() {
        let is_of = |line: &Value| line.get("command").and_then(Value::text) == Some(form);
        assert!(lines().iter().any(is_of), "{form}");
    }
}

/// Every way to damage a member of an object, at any depth.
fn damaged(value: &Value) -> Vec<Value> {
    let Value::Object(members) = value else {
        return Vec::new();
    };
    let mut found = Vec::new();
    for (at, (key, member)) in members.iter().enumerate() {
        let with = |member: Value| {
            let mut members = members.clone();
            members[at].1 = member;
            Value::Object(members)
        };
        let renamed = [members.clone(), vec![(format!("{key}_"), member.clone())]].concat();
        found.extend([Value::Object(renamed), with(Value::Null)]);
        found.extend(damaged(member).into_iter().map(with));
        if let Value::List(items) = member {
            found.push(with(Value::List(
                [items.as_slice(), &[Value::Null]].concat(),
            )));
        }
    }
    found
}

#[test]
fn damaged_lines_are_refused() {
    let schema = schema();
    for line in lines() {
        let all = damaged(&line);
        assert!(all.len() >= 6, "{line:?}");
        for value in all {
            assert!(schema.check(&value).is_err(), "{value:?}");
        }
    }
}

/// Of which statement a record came is told of targets alone, and an entry that differs may have no readable answer; a
/// line without any other member is refused.
fn is_optional(line: &Value, key: &str) -> bool {
    let is_different = line.get("difference").is_some();
    key == "of" || is_different && key == "answer"
}

#[test]
fn lines_without_a_member_are_refused() {
    let schema = schema();
    for line in lines() {
        let Value::Object(members) = &line else {
            panic!("{line:?}");
        };
        for (at, (key, _)) in members.iter().enumerate() {
            let mut fewer = members.clone();
            fewer.remove(at);
            assert_eq!(
                schema.check(&Value::Object(fewer)).is_ok(),
                is_optional(&line, key),
                "{line:?} without {key}"
            );
        }
    }
}

#[test]
fn each_keyword_refuses() {
    let refused = [
        (r#"{"type": "string"}"#, "1"),
        (r#"{"type": "integer"}"#, "\"1\""),
        (r#"{"const": 0}"#, "1"),
        (r#"{"const": true}"#, "1"),
        (r#"{"enum": [1, 2]}"#, "3"),
        (r#"{"required": ["a"]}"#, "{}"),
        (r#"{"required": ["a"]}"#, "[]"),
        (
            r#"{"properties": {"a": {"type": "integer"}}}"#,
            r#"{"a": "1"}"#,
        ),
        (
            r#"{"properties": {}, "additionalProperties": false}"#,
            r#"{"a": 1}"#,
        ),
        (r#"{"items": {"type": "integer"}}"#, "[1, null]"),
        (r#"{"oneOf": [{"const": 1}, {"const": 2}]}"#, "3"),
        (r#"{"oneOf": [{"const": 1}, {"type": "integer"}]}"#, "1"),
        (
            r##"{"$ref": "#/$defs/one", "$defs": {"one": {"const": 1}}}"##,
            "2",
        ),
    ];
    for (schema, value) in refused {
        let found = Schema::new(schema).check(&parsed(value).expect(value));
        assert!(found.is_err(), "{schema} {value}");
    }
}

#[test]
#[should_panic(expected = "the keyword minimum is not known")]
fn an_unknown_keyword_is_not_passed_over() {
    let _ = Schema::new(r#"{"minimum": 1}"#).check(&Value::Number(1));
}

#[test]
fn texts_that_are_no_json() {
    let refused = [
        "",
        "{",
        "{}}",
        "{} {}",
        "{\"a\" 1}",
        "{\"a\": 1,}",
        "[1,]",
        "[1 2]",
        "{a: 1}",
        "\"a",
        "\"\\x\"",
        "\"\n\"",
        "\"\\u12\"",
        "\"\\ud800\"",
        "\"\\u+123\"",
        "01",
        "-01",
        "+1",
        "--1",
        "-",
        "1.0",
        "1e3",
        "9223372036854775808",
        "True",
        "nul",
        "{\"a\": 1, \"a\": 1}",
    ];
    for text in refused {
        assert!(parsed(text).is_err(), "{text:?}");
    }
}

#[test]
fn texts_that_are_json() {
    let numbers = "[0, -0, 7, 9223372036854775807, -9223372036854775808]";
    let expected = [0, 0, 7, i64::MAX, i64::MIN].map(Value::Number);
    assert_eq!(parsed(numbers), Ok(Value::List(expected.to_vec())));
    let text = r#" "\"\\\/\n\u0041\ufffd é" "#;
    assert_eq!(
        parsed(text),
        Ok(Value::Text("\"\\/\nA\u{FFFD} é".to_string()))
    );
    let nested = r#"{"a": [{}, [], null, true, false]}"#;
    let items = vec![
        Value::Object(vec![]),
        Value::List(vec![]),
        Value::Null,
        Value::Truth(true),
        Value::Truth(false),
    ];
    assert_eq!(
        parsed(nested),
        Ok(Value::Object(vec![("a".to_string(), Value::List(items))]))
    );
}
