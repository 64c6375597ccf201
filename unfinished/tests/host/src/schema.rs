//! The part of JSON Schema that `docs/recorder.schema.json` uses. A keyword that is not of this part is an error of the
//! schema, so that none is passed over.

use crate::json::{parsed, Value};

pub struct Schema {
    root: Value,
}

impl Schema {
    pub fn new(text: &str) -> Schema {
        let root = parsed(text).unwrap_or_else(|error| panic!("the schema: {error}"));
        Schema { root }
    }

    /// Why the value does not match; nothing where it does.
    pub fn check(&self, value: &Value) -> Result<(), String> {
        self.matches(&self.root, value)
    }

    /// The names of the forms of which a line has one.
    pub fn forms(&self) -> Vec<&str> {
        let forms = list(self.root.get("oneOf").expect("forms"));
        let names = forms.iter().map(|form| {
            let name = form.get("$ref").and_then(Value::text);
            name.and_then(|name| name.strip_prefix("#/$defs/"))
                .expect("a form's name")
        });
        names.collect()
    }

    fn matches(&self, schema: &Value, value: &Value) -> Result<(), String> {
        let Value::Object(keywords) = schema else {
            panic!("no schema: {schema:?}");
        };
        for (keyword, given) in keywords {
            self.keyword(keyword, given, schema, value)?;
        }
        Ok(())
    }

    fn keyword(
        &self,
        keyword: &str,
        given: &Value,
        schema: &Value,
        value: &Value,
    ) -> Result<(), String> {
        match keyword {
            "$schema" | "title" | "$defs" => Ok(()),
            "$ref" => self.matches(self.definition(given), value),
            "type" => ensure(type_of(value) == text(given), || {
                format!("{value:?} is no {}", text(given))
            }),
            "const" => ensure(value == given, || format!("{value:?} is not {given:?}")),
            "enum" => ensure(list(given).contains(value), || {
                format!("{value:?} is none of {given:?}")
            }),
            "required" => list(given).iter().try_for_each(|key| {
                ensure(value.get(text(key)).is_some(), || {
                    format!("no {} in {value:?}", text(key))
                })
            }),
            "properties" => self.properties(given, value),
            "additionalProperties" => {
                assert_eq!(given, &Value::Truth(false), "additionalProperties");
                no_other_keys(schema, value)
            }
            "items" => match value {
                Value::List(items) => items.iter().try_for_each(|item| self.matches(given, item)),
                _ => Ok(()),
            },
            "oneOf" => self.one_of(list(given), value),
            _ => panic!("the keyword {keyword} is not known"),
        }
    }

    fn definition(&self, reference: &Value) -> &Value {
        let name = text(reference)
            .strip_prefix("#/$defs/")
            .expect("a reference to $defs");
        let definitions = self.root.get("$defs").expect("definitions");
        definitions
            .get(name)
            .unwrap_or_else(|| panic!("no definition {name}"))
    }

    fn properties(&self, given: &Value, value: &Value) -> Result<(), String> {
        members(value)
            .iter()
            .try_for_each(|(key, member)| match given.get(key) {
                Some(schema) => self
                    .matches(schema, member)
                    .map_err(|error| format!("{key}: {error}")),
                None => Ok(()),
            })
    }

    fn one_of(&self, forms: &[Value], value: &Value) -> Result<(), String> {
        let results: Vec<_> = forms.iter().map(|form| self.matches(form, value)).collect();
        let count = results.iter().filter(|result| result.is_ok()).count();
        ensure(count == 1, || format!("{count} forms match: {results:?}"))
    }
}

fn no_other_keys(schema: &Value, value: &Value) -> Result<(), String> {
    let known = schema
        .get("properties")
        .expect("properties beside additionalProperties");
    members(value).iter().try_for_each(|(key, _)| {
        ensure(known.get(key).is_some(), || {
            format!("the key {key} is not known")
        })
    })
}

fn ensure(holds: bool, error: impl FnOnce() -> String) -> Result<(), String> {
    if holds {
        Ok(())
    } else {
        Err(error())
    }
}

fn type_of(value: &Value) -> &'static str {
    match value {
        Value::Null => "null",
        Value::Truth(_) => "boolean",
        Value::Number(_) => "integer",
        Value::Text(_) => "string",
        Value::List(_) => "array",
        Value::Object(_) => "object",
    }
}

fn text(value: &Value) -> &str {
    value.text().unwrap_or_else(|| panic!("no text: {value:?}"))
}

fn list(value: &Value) -> &[Value] {
    match value {
        Value::List(items) => items,
        _ => panic!("no list: {value:?}"),
    }
}

/// None where the value is no object.
fn members(value: &Value) -> &[(String, Value)] {
    match value {
        Value::Object(members) => members,
        _ => &[],
    }
}
