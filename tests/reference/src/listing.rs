//! The text of the listing program for a given standard input.

use crate::translator::translation;
use std::fmt::Write;

/// "one line a target record"; "for a refused table one line, refusal number and record".
pub fn listing(input: &[u8]) -> String {
    let translation = match translation(input) {
        Ok(translation) => translation,
        Err(refusal) => return format!("{} {}\n", refusal.number, refusal.record),
    };
    let mut text = String::new();
    for (number, record) in (1..).zip(&translation.records) {
        let number: u32 = number;
        let [a, b, c] = record.fields();
        let (kind, mark, literal) = (record.kind, record.mark, record.literal);
        // Writing to a string cannot fail.
        let _ = writeln!(text, "{number} {kind} {mark} {a} {b} {c} {literal}");
    }
    text
}
