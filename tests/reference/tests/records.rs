//! The fields of a record, little-endian, and where records begin.

use reference::record::{record, records, table, Record};

const BYTES: [u8; 16] = [
    45, 7, 1, 2, 3, 4, 5, 6, 254, 255, 255, 255, 255, 255, 255, 255,
];

const FIELDS: Record = Record {
    kind: 45,
    mark: 7,
    a: 0x0201,
    b: 0x0403,
    c: 0x0605,
    literal: -2,
};

#[test]
fn fields_are_little_endian() {
    assert_eq!(Record::from_bytes(BYTES), FIELDS);
    assert_eq!(FIELDS.bytes(), BYTES);
}

#[test]
fn records_count_from_1_and_end_with_the_table() {
    let bytes = [[0; 16], BYTES].concat();
    assert_eq!(record(&bytes, 0), None);
    assert_eq!(record(&bytes, 1), Some(Record::default()));
    assert_eq!(record(&bytes, 2), Some(FIELDS));
    assert_eq!(record(&bytes, 3), None);
    assert_eq!(record(&bytes, usize::MAX), None);
    assert_eq!(record(&bytes[..31], 2), None);
}

#[test]
fn a_table_is_its_records_one_after_another() {
    let list = [Record::default(), FIELDS];
    assert_eq!(table(&list), [[0; 16], BYTES].concat());
    assert_eq!(records(&table(&list)), list);
}
