//! The table checker: refusals 1 to 8 of a source table and 1 to 7 of a target table.

use crate::answer::{self, Answer};
use crate::grammar::{self, Language, Sort};
use crate::limits::{RECORD_BYTES, SOURCE_RECORDS, TARGET_RECORDS, TEMPORARIES};
use crate::record::{records, Record};

pub fn check_source(table: &[u8]) -> Answer {
    check(table, Language::Source)
        .err()
        .unwrap_or(Answer::ACCEPTED)
}

pub fn check_target(table: &[u8]) -> Answer {
    check(table, Language::Target)
        .err()
        .unwrap_or(Answer::ACCEPTED)
}

/// The records of an accepted table, or the refusal.
pub fn check(table: &[u8], language: Language) -> Result<Vec<Record>, Answer> {
    length_holds(table, language)?;
    let records = records(table);
    for number in 1..=records.len() {
        record_holds(&records, number, language)?;
    }
    lowest(answer::SHAPE, shape_offenders(&records))?;
    lowest(answer::SCOPE, scope_offenders(&records))?;
    if language == Language::Source {
        lowest(answer::TOO_DEEP, level_offenders(&records))?;
    }
    Ok(records)
}

fn length_holds(table: &[u8], language: Language) -> Result<(), Answer> {
    let limit = match language {
        Language::Source => SOURCE_RECORDS,
        Language::Target => TARGET_RECORDS,
    };
    if table.is_empty() || !table.len().is_multiple_of(RECORD_BYTES) {
        return Err(Answer::of(answer::LENGTH, 0));
    }
    if table.len() / RECORD_BYTES > limit {
        return Err(Answer::of(answer::TOO_MANY_RECORDS, 0));
    }
    Ok(())
}

/// "3–5 are tried record by record": kind, then every field rule, then the children.
fn record_holds(records: &[Record], number: usize, language: Language) -> Result<(), Answer> {
    let record = &records[number - 1];
    let refusal = if !grammar::in_language(record.kind, language) {
        answer::KIND
    } else if !grammar::fields_hold(record, language) {
        answer::FIELD
    } else if !children_hold(records, number) {
        answer::CHILD
    } else {
        return Ok(());
    };
    Err(Answer::of(refusal, number as u32))
}

fn children_hold(records: &[Record], number: usize) -> bool {
    let record = &records[number - 1];
    let asked = grammar::children(record.kind);
    record.fields().iter().zip(asked).all(|(&child, asked)| {
        let child = usize::from(child);
        asked.is_none() || child < number && grammar::sort(records[child - 1].kind) == asked
    })
}

/// "last record no statement, or another not a child exactly once."
fn shape_offenders(records: &[Record]) -> Vec<usize> {
    let mut uses = vec![0_u32; records.len() + 1];
    for record in records {
        for child in grammar::child_numbers(record) {
            uses[usize::from(child)] += 1;
        }
    }
    let last = records.len();
    let is_statement = grammar::sort(records[last - 1].kind) == Some(Sort::Statement);
    let mut offenders: Vec<usize> = (1..last).filter(|&number| uses[number] != 1).collect();
    if !is_statement {
        offenders.push(last);
    }
    offenders
}

/// Parents have larger numbers, so one pass downwards hands each record its scope.
fn scope_offenders(records: &[Record]) -> Vec<usize> {
    let mut scopes = vec![1_u64; records.len() + 1];
    let mut offenders = Vec::new();
    for number in (1..=records.len()).rev() {
        let record = &records[number - 1];
        let scope = scopes[number];
        let variable = 1_u64.checked_shl(u32::from(record.mark)).unwrap_or(0);
        let in_scope = scope & variable != 0;
        if record.kind == 10 && !in_scope || record.kind == 47 && in_scope {
            offenders.push(number);
        }
        let below = if record.kind == 47 {
            scope | variable
        } else {
            scope
        };
        for child in grammar::child_numbers(record) {
            scopes[usize::from(child)] = below;
        }
    }
    offenders
}

/// Terms and predicates "whose own target records (not its children's)" pass the last temporary.
fn level_offenders(records: &[Record]) -> Vec<usize> {
    let mut levels = vec![0_usize; records.len() + 1];
    let mut offenders = Vec::new();
    for number in (1..=records.len()).rev() {
        let record = &records[number - 1];
        let level = levels[number];
        let (highest, first, second) = match record.kind {
            20 => (level, 0, 0),
            21..=23 | 30 | 31 | 33 => (level + 1, level + 1, 0),
            24 | 32 => (level + 2, level + 1, level + 2),
            34 | 35 => (level, level, level),
            _ => (0, 0, 0),
        };
        if highest >= TEMPORARIES {
            offenders.push(number);
        }
        levels[usize::from(record.a)] = first;
        levels[usize::from(record.b)] = second;
    }
    offenders
}

/// "within one number the lowest record is named."
fn lowest(number: u32, offenders: Vec<usize>) -> Result<(), Answer> {
    match offenders.into_iter().min() {
        Some(record) => Err(Answer::of(number, record as u32)),
        None => Ok(()),
    }
}
