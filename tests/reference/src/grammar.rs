//! The kinds of both languages: their sorts, their children and what their other fields may hold.

use crate::record::Record;

#[derive(Debug, Clone, Copy, PartialEq, Eq)]
pub enum Language {
    Source,
    Target,
}

#[derive(Debug, Clone, Copy, PartialEq, Eq)]
pub enum Sort {
    Expression,
    Place,
    Term,
    Predicate,
    Statement,
}

use Sort::{Expression, Place, Predicate, Statement, Term};

/// The sort of a kind, or none where no language has the kind.
pub fn sort(kind: u8) -> Option<Sort> {
    match kind {
        1..=5 => Some(Expression),
        10..=12 => Some(Place),
        20..=24 => Some(Term),
        30..=35 => Some(Predicate),
        40..=48 | 60 | 61 | 63..=70 => Some(Statement),
        _ => None,
    }
}

/// "A target table has no kind 20–35 or 48"; a source table has no 12 and no 60–70.
pub fn in_language(kind: u8, language: Language) -> bool {
    let only = match kind {
        20..=35 | 48 => Some(Language::Source),
        12 | 60..=70 => Some(Language::Target),
        _ => None,
    };
    sort(kind).is_some() && only.is_none_or(|only| only == language)
}

/// The sorts that fields A, B and C ask for; none where the field holds no child.
pub fn children(kind: u8) -> [Option<Sort>; 3] {
    match kind {
        2 | 3 | 60 => [Some(Place), None, None],
        4 | 5 => [Some(Expression), Some(Expression), None],
        11 | 20 | 43 | 61 => [Some(Expression), None, None],
        21..=23 | 30 | 31 => [Some(Term), None, None],
        24 | 32 => [Some(Term), Some(Term), None],
        33 | 48 => [Some(Predicate), None, None],
        34 | 35 => [Some(Predicate), Some(Predicate), None],
        41 | 42 => [Some(Place), Some(Expression), None],
        44 => [Some(Statement), Some(Statement), None],
        45 => [Some(Expression), Some(Statement), Some(Statement)],
        46 => [Some(Expression), Some(Statement), None],
        47 => [Some(Statement), None, None],
        66 => [None, Some(Statement), Some(Statement)],
        _ => [None, None, None],
    }
}

/// The children that an accepted record really has: operators and queries in C are none.
pub fn child_numbers(record: &Record) -> impl Iterator<Item = u16> {
    let sorts = children(record.kind);
    let fields = record.fields();
    (0..3)
        .filter(move |&at| sorts[at].is_some())
        .map(move |at| fields[at])
}

/// Whether mark, field C of 63 and 64, literal and the presence of children keep the rules.
pub fn fields_hold(record: &Record, language: Language) -> bool {
    mark_holds(record.kind, record.mark)
        && presence_holds(record)
        && literal_holds(record, language)
}

fn mark_holds(kind: u8, mark: u8) -> bool {
    match kind {
        4 => (1..=7).contains(&mark),
        24 => (1..=5).contains(&mark) || mark == 8,
        32 => mark == 6 || mark == 7,
        10 | 47 => mark <= 63,
        12 | 60 | 61 | 66 | 67 | 69 | 70 => mark <= 63,
        // These name t(n+1) too, and 63 names t(n+2) as well.
        64 | 65 | 68 => mark <= 62,
        63 => mark <= 61,
        _ => mark == 0,
    }
}

fn presence_holds(record: &Record) -> bool {
    let sorts = children(record.kind);
    let c_holds = match record.kind {
        63 => (1..=8).contains(&record.c),
        64 => (1..=5).contains(&record.c),
        _ => sorts[2].is_some() == (record.c != 0),
    };
    sorts[0].is_some() == (record.a != 0) && sorts[1].is_some() == (record.b != 0) && c_holds
}

fn literal_holds(record: &Record, language: Language) -> bool {
    match (record.kind, language) {
        (1, _) => true,
        // "From kind 40 on, a target literal is the number of the source statement."
        (40.., Language::Target) => (1..=256).contains(&record.literal),
        _ => record.literal == 0,
    }
}
