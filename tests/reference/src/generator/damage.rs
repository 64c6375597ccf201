//! Damage to tables, each way aimed at one refusal without a promise to hit it.

use super::random::Random;
use crate::grammar::{self, Language};
use crate::limits::{RECORD_BYTES, SOURCE_RECORDS, TARGET_RECORDS};
use crate::record::{records, table, Record};

/// The table with one to three damages of any kind.
pub fn damaged(bytes: &[u8], language: Language, random: &mut Random) -> Vec<u8> {
    let mut bytes = bytes.to_vec();
    let times = random.pick(&[1, 1, 1, 1, 2, 3]);
    for _ in 0..times {
        bytes = damaged_once(bytes, language, random);
    }
    bytes
}

fn damaged_once(mut bytes: Vec<u8>, language: Language, random: &mut Random) -> Vec<u8> {
    match random.below(16) {
        0 => damage_length(&mut bytes, random),
        1 => lengthen(&mut bytes, language, random),
        2 => damage_bytes(&mut bytes, random),
        3 => {
            let length = random.range(0, 6) as usize * RECORD_BYTES;
            bytes = random.bytes(length);
        }
        way => {
            let mut list = records(&bytes);
            if !list.is_empty() {
                damage_records(&mut list, way, random);
            }
            bytes = table(&list);
        }
    }
    bytes
}

/// Aimed at 1.
fn damage_length(bytes: &mut Vec<u8>, random: &mut Random) {
    match random.below(3) {
        0 => bytes.clear(),
        1 => bytes.truncate(random.index(bytes.len().max(1))),
        _ => {
            let length = random.range(1, 40) as usize;
            bytes.extend(random.bytes(length));
        }
    }
}

/// Aimed at 2: repeated to the limit or one past it.
fn lengthen(bytes: &mut Vec<u8>, language: Language, random: &mut Random) {
    let limit = match language {
        Language::Source => SOURCE_RECORDS,
        Language::Target => TARGET_RECORDS,
    };
    let length = (limit + random.pick(&[0, 1, 1, 2, 30])) * RECORD_BYTES;
    let filler = if bytes.is_empty() {
        vec![0]
    } else {
        bytes.clone()
    };
    bytes.extend(
        filler
            .iter()
            .cycle()
            .take(length.saturating_sub(bytes.len())),
    );
}

fn damage_bytes(bytes: &mut [u8], random: &mut Random) {
    for _ in 0..random.range(1, 4) {
        let at = random.index(bytes.len());
        if let Some(byte) = bytes.get_mut(at) {
            *byte = random.draw() as u8;
        }
    }
}

fn damage_records(list: &mut Vec<Record>, way: u64, random: &mut Random) {
    let at = random.index(list.len());
    match way {
        4 => list[at].kind = random.pick(&[0, 6, 9, 12, 13, 19, 25, 36, 49, 59, 62, 71, 255]),
        5 => list[at].kind = random.pick(&[1, 2, 4, 11, 20, 24, 30, 34, 48, 41, 45, 60, 64]),
        6 | 7 => damage_field(&mut list[at], random),
        8 | 9 => damage_child(list, at, random),
        10 | 11 => share_child(list, random),
        12 => {
            list.pop();
        }
        13 => {
            list.push(Record {
                kind: random.pick(&[1, 40]),
                ..Record::default()
            });
        }
        14 => damage_variable(list, random),
        _ => {
            let other = random.index(list.len());
            list.swap(at, other);
        }
    }
}

/// Aimed at 4.
fn damage_field(record: &mut Record, random: &mut Random) {
    let small = random.pick(&[0, 0, 1, 2, 6, 9]);
    match random.below(5) {
        0 => record.mark = random.pick(&[0, 1, 5, 6, 7, 8, 9, 61, 62, 63, 64, 255]),
        1 => record.a = small,
        2 => record.b = small,
        3 => record.c = small,
        _ => record.literal = random.pick(&[-1, 0, 1, 256, 257, i64::MIN, 1 << 32]),
    }
}

/// Aimed at 5: a child at or above its own number, or any other record.
fn damage_child(list: &mut [Record], at: usize, random: &mut Random) {
    let child = match random.below(4) {
        0 => at + 1,
        1 => list.len() + 1,
        2 => usize::from(u16::MAX),
        _ => 1 + random.index(at.max(1)),
    };
    let child = child.min(usize::from(u16::MAX)) as u16;
    match grammar::child_numbers(&list[at]).count() {
        0 => {}
        1 => list[at].a = child,
        _ => list[at].b = child,
    }
}

/// Aimed at 6: a child taken from among the other records of its sort.
fn share_child(list: &mut [Record], random: &mut Random) {
    let at = random.index(list.len());
    let Some(sort) = grammar::children(list[at].kind)[0] else {
        return;
    };
    let fitting = |&number: &usize| grammar::sort(list[number - 1].kind) == Some(sort);
    let others: Vec<usize> = (1..=at).filter(fitting).collect();
    if !others.is_empty() {
        list[at].a = random.pick(&others) as u16;
    }
}

/// Aimed at 7.
fn damage_variable(list: &mut [Record], random: &mut Random) {
    let naming = |&at: &usize| matches!(list[at].kind, 10 | 47);
    let places: Vec<usize> = (0..list.len()).filter(naming).collect();
    if places.is_empty() {
        return;
    }
    let from = list[random.pick(&places)].mark;
    let mark = if random.chance(50) {
        from
    } else {
        random.below(64) as u8
    };
    list[random.pick(&places)].mark = mark;
}

/// A target whose marks, operators, queries, literals or temporaries were changed a little.
pub fn perturbed(list: &mut [Record], random: &mut Random) {
    for _ in 0..random.range(1, 5) {
        let at = random.index(list.len());
        let Some(record) = list.get_mut(at) else {
            return;
        };
        match record.kind {
            1 => record.literal = random.range(-2, 3),
            4 => record.mark = random.range(1, 7) as u8,
            12 | 60 | 61 | 65..=70 => record.mark = random.below(4) as u8,
            63 => record.c = random.range(1, 8) as u16,
            64 => record.c = random.range(1, 5) as u16,
            40.. => record.literal = random.range(1, 256),
            _ => {}
        }
        if matches!(record.kind, 68..=70) && random.chance(30) {
            record.kind = random.pick(&[68, 69, 70]);
        }
    }
}
