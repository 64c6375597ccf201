//! The translator: an accepted source table into the target table that watches it.

use crate::answer::{Answer, SHORT_OUTPUT};
use crate::checker::check;
use crate::grammar::Language;
use crate::limits::RECORD_BYTES;
use crate::record::{table, Record};

/// The target records in order, each with the source record it came from.
pub struct Translation {
    pub records: Vec<Record>,
    pub origins: Vec<u16>,
}

/// Refusals 1–8, then 20; "bytes past it stay".
pub fn translate(source: &[u8], output: &mut [u8]) -> Answer {
    let translation = match translation(source) {
        Ok(translation) => translation,
        Err(refusal) => return refusal,
    };
    let count = translation.records.len();
    match output.get_mut(..count * RECORD_BYTES) {
        Some(front) => front.copy_from_slice(&table(&translation.records)),
        None => return Answer::of(SHORT_OUTPUT, 0),
    }
    Answer::of(0, count as u32)
}

/// The translation of an accepted source table, or the refusal by 1–8.
pub fn translation(source: &[u8]) -> Result<Translation, Answer> {
    let source = check(source, Language::Source)?;
    let mut translator = Translator {
        source: &source,
        records: Vec::new(),
        origins: Vec::new(),
    };
    translator.statement(source.len() as u16);
    Ok(Translation {
        records: translator.records,
        origins: translator.origins,
    })
}

struct Translator<'source> {
    source: &'source [Record],
    records: Vec<Record>,
    origins: Vec<u16>,
}

/// Whose records are being written: the source record they come from and its statement.
#[derive(Clone, Copy)]
struct From {
    origin: u16,
    statement: u16,
}

impl Translator<'_> {
    fn source(&self, number: u16) -> Record {
        self.source[usize::from(number) - 1]
    }

    fn write(&mut self, origin: u16, record: Record) -> u16 {
        self.records.push(record);
        self.origins.push(origin);
        self.records.len() as u16
    }

    /// A target statement, which names its source statement in its literal.
    fn put(&mut self, from: From, kind: u8, mark: u8, [a, b, c]: [u16; 3]) -> u16 {
        let literal = i64::from(from.statement);
        self.write(
            from.origin,
            Record {
                kind,
                mark,
                a,
                b,
                c,
                literal,
            },
        )
    }

    /// "Parts listed in order nest as 44(first, 44(second, ..))."
    fn list(&mut self, from: From, parts: &[u16]) -> u16 {
        let (last, earlier) = parts.split_last().expect("a list has parts");
        let nest = |rest, &part| self.put(from, 44, 0, [part, rest, 0]);
        earlier.iter().rev().fold(*last, nest)
    }

    /// A further copy of an expression or place, child-first.
    fn copy(&mut self, number: u16) -> u16 {
        let mut record = self.source(number);
        if record.a != 0 {
            record.a = self.copy(record.a);
        }
        if record.b != 0 {
            record.b = self.copy(record.b);
        }
        self.write(number, record)
    }

    fn variable(&mut self, from: From, mark: u8) -> u16 {
        let record = Record {
            kind: 10,
            mark,
            ..Record::default()
        };
        self.write(from.origin, record)
    }

    fn literal(&mut self, from: From, literal: i64) -> u16 {
        let record = Record {
            kind: 1,
            literal,
            ..Record::default()
        };
        self.write(from.origin, record)
    }

    /// "read of 12 t0."
    fn read_of_t0(&mut self, from: From) -> u16 {
        let place = Record {
            kind: 12,
            ..Record::default()
        };
        let a = self.write(from.origin, place);
        let read = Record {
            kind: 2,
            a,
            ..Record::default()
        };
        self.write(from.origin, read)
    }

    fn statement(&mut self, number: u16) -> u16 {
        let source = self.source(number);
        let from = From {
            origin: number,
            statement: number,
        };
        match source.kind {
            41 => self.take(from, source),
            42 => self.take_new(from, source),
            43 => self.free(from, source),
            47 => self.let_variable(from, source),
            48 => self.assert(from, source),
            kind => {
                let children = self.kept(source);
                self.put(from, kind, 0, children)
            }
        }
    }

    /// "Kinds 40, 44, 45, 46 keep their form": their children, translated from A to C.
    fn kept(&mut self, source: Record) -> [u16; 3] {
        let first = match source.kind {
            40 => 0,
            44 => self.statement(source.a),
            _ => self.copy(source.a),
        };
        let [second, third] = [source.b, source.c].map(|child| match child {
            0 => 0,
            child => self.statement(child),
        });
        [first, second, third]
    }

    /// "41: 60 t0 place; 41; 70 t0."
    fn take(&mut self, from: From, source: Record) -> u16 {
        let place = self.copy(source.a);
        let saved = self.put(from, 60, 0, [place, 0, 0]);
        let place = self.copy(source.a);
        let value = self.copy(source.b);
        let taken = self.put(from, 41, 0, [place, value, 0]);
        let marked = self.put(from, 70, 0, [0; 3]);
        self.list(from, &[saved, taken, marked])
    }

    /// "42: 60 t0 place; 61 t2 size; 42; 61 t1 read of 12 t0; 68 n=1; 70 t0."
    fn take_new(&mut self, from: From, source: Record) -> u16 {
        let place = self.copy(source.a);
        let saved = self.put(from, 60, 0, [place, 0, 0]);
        let size = self.copy(source.b);
        let sized = self.put(from, 61, 2, [size, 0, 0]);
        let place = self.copy(source.a);
        let size = self.copy(source.b);
        let taken = self.put(from, 42, 0, [place, size, 0]);
        let read = self.read_of_t0(from);
        let fetched = self.put(from, 61, 1, [read, 0, 0]);
        let stored = self.put(from, 68, 1, [0; 3]);
        let marked = self.put(from, 70, 0, [0; 3]);
        self.list(from, &[saved, sized, taken, fetched, stored, marked])
    }

    /// "43: 61 t0; 43; 69 t0."
    fn free(&mut self, from: From, source: Record) -> u16 {
        let pointer = self.copy(source.a);
        let saved = self.put(from, 61, 0, [pointer, 0, 0]);
        let pointer = self.copy(source.a);
        let freed = self.put(from, 43, 0, [pointer, 0, 0]);
        let deleted = self.put(from, 69, 0, [0; 3]);
        self.list(from, &[saved, freed, deleted])
    }

    /// "47: let of (60 t0 variable; 61 t1 literal 1; 68 n=0; body; 60 t0 variable; 69 t0)."
    fn let_variable(&mut self, from: From, source: Record) -> u16 {
        let variable = self.variable(from, source.mark);
        let saved = self.put(from, 60, 0, [variable, 0, 0]);
        let one = self.literal(from, 1);
        let sized = self.put(from, 61, 1, [one, 0, 0]);
        let stored = self.put(from, 68, 0, [0; 3]);
        let body = self.statement(source.a);
        let variable = self.variable(from, source.mark);
        let saved_again = self.put(from, 60, 0, [variable, 0, 0]);
        let deleted = self.put(from, 69, 0, [0; 3]);
        let parts = [saved, sized, stored, body, saved_again, deleted];
        let inside = self.list(from, &parts);
        self.put(from, 47, source.mark, [inside, 0, 0])
    }

    /// "48: predicate at level 0; 67 t0."
    fn assert(&mut self, from: From, source: Record) -> u16 {
        let predicate = self.at_level(source.a, 0, from.statement);
        let asserted = self.put(from, 67, 0, [0; 3]);
        self.list(from, &[predicate, asserted])
    }

    /// The term or predicate `number` worked out into t(level).
    fn at_level(&mut self, number: u16, level: u8, statement: u16) -> u16 {
        let source = self.source(number);
        let from = From {
            origin: number,
            statement,
        };
        match source.kind {
            20 => {
                let expression = self.copy(source.a);
                self.put(from, 61, level, [expression, 0, 0])
            }
            24 | 32 => self.operating(from, source, level),
            34 | 35 => self.skipping(from, source, level),
            kind => {
                let child = self.at_level(source.a, level + 1, statement);
                let asked = match query(kind) {
                    Some(query) => self.put(from, 64, level, [0, 0, query]),
                    None => self.put(from, 65, level, [0; 3]),
                };
                self.list(from, &[child, asked])
            }
        }
    }

    /// "24, 32: A at n+1; B at n+2; 63."
    fn operating(&mut self, from: From, source: Record, level: u8) -> u16 {
        let first = self.at_level(source.a, level + 1, from.statement);
        let second = self.at_level(source.b, level + 2, from.statement);
        let operated = self.put(from, 63, level, [0, 0, u16::from(source.mark)]);
        self.list(from, &[first, second, operated])
    }

    /// "34: A at n; 66 with B at n, else skip. 35: A at n; 66 with skip, else B at n."
    fn skipping(&mut self, from: From, source: Record, level: u8) -> u16 {
        let first = self.at_level(source.a, level, from.statement);
        let branches = if source.kind == 34 {
            let second = self.at_level(source.b, level, from.statement);
            [0, second, self.put(from, 40, 0, [0; 3])]
        } else {
            let skip = self.put(from, 40, 0, [0; 3]);
            [0, skip, self.at_level(source.b, level, from.statement)]
        };
        let chosen = self.put(from, 66, level, branches);
        self.list(from, &[first, chosen])
    }
}

/// The query of 30, 31, 21, 22, 23; 33 has none and becomes a 65.
fn query(kind: u8) -> Option<u16> {
    match kind {
        30 => Some(1),
        31 => Some(2),
        21 => Some(3),
        22 => Some(4),
        23 => Some(5),
        _ => None,
    }
}
