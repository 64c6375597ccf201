//! The forms of both languages as document 01 lists them, written down a second time.

use reference::record::Record;

/// Sorts are letters: expression, place, term, predicate (q), statement; a dot is no child.
#[derive(Clone, Copy)]
pub struct Form {
    pub kind: u8,
    pub sort: char,
    pub children: [char; 3],
    /// The marks allowed, as ranges with both ends.
    pub marks: &'static [(u8, u8)],
    /// The values of field C that are no child.
    pub c_values: &'static [u16],
}

const ZERO: &[(u8, u8)] = &[(0, 0)];
const TO_61: &[(u8, u8)] = &[(0, 61)];
const TO_62: &[(u8, u8)] = &[(0, 62)];
const TO_63: &[(u8, u8)] = &[(0, 63)];

const fn form(kind: u8, sort: char, children: [char; 3], marks: &'static [(u8, u8)]) -> Form {
    Form {
        kind,
        sort,
        children,
        marks,
        c_values: &[],
    }
}

const BOTH: [Form; 15] = [
    form(1, 'e', ['.', '.', '.'], ZERO),
    form(2, 'e', ['p', '.', '.'], ZERO),
    form(3, 'e', ['p', '.', '.'], ZERO),
    form(4, 'e', ['e', 'e', '.'], &[(1, 7)]),
    form(5, 'e', ['e', 'e', '.'], ZERO),
    form(10, 'p', ['.', '.', '.'], TO_63),
    form(11, 'p', ['e', '.', '.'], ZERO),
    form(40, 's', ['.', '.', '.'], ZERO),
    form(41, 's', ['p', 'e', '.'], ZERO),
    form(42, 's', ['p', 'e', '.'], ZERO),
    form(43, 's', ['e', '.', '.'], ZERO),
    form(44, 's', ['s', 's', '.'], ZERO),
    form(45, 's', ['e', 's', 's'], ZERO),
    form(46, 's', ['e', 's', '.'], ZERO),
    form(47, 's', ['s', '.', '.'], TO_63),
];

const SOURCE_ONLY: [Form; 12] = [
    form(20, 't', ['e', '.', '.'], ZERO),
    form(21, 't', ['t', '.', '.'], ZERO),
    form(22, 't', ['t', '.', '.'], ZERO),
    form(23, 't', ['t', '.', '.'], ZERO),
    form(24, 't', ['t', 't', '.'], &[(1, 5), (8, 8)]),
    form(30, 'q', ['t', '.', '.'], ZERO),
    form(31, 'q', ['t', '.', '.'], ZERO),
    form(32, 'q', ['t', 't', '.'], &[(6, 7)]),
    form(33, 'q', ['q', '.', '.'], ZERO),
    form(34, 'q', ['q', 'q', '.'], ZERO),
    form(35, 'q', ['q', 'q', '.'], ZERO),
    form(48, 's', ['q', '.', '.'], ZERO),
];

const OPERATORS: &[u16] = &[1, 2, 3, 4, 5, 6, 7, 8];
const QUERIES: &[u16] = &[1, 2, 3, 4, 5];

const TARGET_ONLY: [Form; 11] = [
    form(12, 'p', ['.', '.', '.'], TO_63),
    form(60, 's', ['p', '.', '.'], TO_63),
    form(61, 's', ['e', '.', '.'], TO_63),
    Form {
        c_values: OPERATORS,
        ..form(63, 's', ['.', '.', '.'], TO_61)
    },
    Form {
        c_values: QUERIES,
        ..form(64, 's', ['.', '.', '.'], TO_62)
    },
    form(65, 's', ['.', '.', '.'], TO_62),
    form(66, 's', ['.', 's', 's'], TO_63),
    form(67, 's', ['.', '.', '.'], TO_63),
    form(68, 's', ['.', '.', '.'], TO_62),
    form(69, 's', ['.', '.', '.'], TO_63),
    form(70, 's', ['.', '.', '.'], TO_63),
];

pub fn source_forms() -> Vec<Form> {
    BOTH.into_iter().chain(SOURCE_ONLY).collect()
}

pub fn target_forms() -> Vec<Form> {
    BOTH.into_iter().chain(TARGET_ONLY).collect()
}

/// A table around one record of the form, and that record's number.
pub struct Around {
    pub records: Vec<Record>,
    pub number: usize,
    label: i64,
}

impl Around {
    /// `label` is 0 in a source and a source statement in a target.
    pub fn new(form: Form, label: i64) -> Around {
        Around::with_sorts(form, form.children, label)
    }

    /// The same with children of the sorts given.
    pub fn with_sorts(form: Form, sorts: [char; 3], label: i64) -> Around {
        let mut around = Around {
            records: Vec::new(),
            number: 0,
            label,
        };
        let [a, b, c] = sorts.map(|sort| around.leaf(sort));
        let c = form.c_values.first().copied().unwrap_or(c);
        // A let of variable 0 would be refused as 7, so the let takes variable 1.
        let mark = if form.kind == 47 { 1 } else { form.marks[0].0 };
        around.number = usize::from(around.add(form.kind, mark, [a, b, c]));
        around.close(form.sort);
        around
    }

    pub fn record(&mut self) -> &mut Record {
        let number = self.number;
        &mut self.records[number - 1]
    }

    pub fn table(&self) -> Vec<u8> {
        reference::record::table(&self.records)
    }

    fn add(&mut self, kind: u8, mark: u8, [a, b, c]: [u16; 3]) -> u16 {
        let literal = if kind >= 40 { self.label } else { 0 };
        self.records.push(Record {
            kind,
            mark,
            a,
            b,
            c,
            literal,
        });
        self.records.len() as u16
    }

    fn leaf(&mut self, sort: char) -> u16 {
        match sort {
            'e' => self.add(1, 0, [0; 3]),
            'p' => self.add(10, 0, [0; 3]),
            't' => {
                let expression = self.leaf('e');
                self.add(20, 0, [expression, 0, 0])
            }
            'q' => {
                let term = self.leaf('t');
                self.add(30, 0, [term, 0, 0])
            }
            's' => self.add(40, 0, [0; 3]),
            _ => 0,
        }
    }

    /// Parents up to a statement.
    fn close(&mut self, sort: char) {
        let last = self.records.len() as u16;
        match sort {
            'e' => self.add(43, 0, [last, 0, 0]),
            'p' => {
                let address = self.add(3, 0, [last, 0, 0]);
                self.add(43, 0, [address, 0, 0])
            }
            't' => {
                let predicate = self.add(30, 0, [last, 0, 0]);
                self.add(48, 0, [predicate, 0, 0])
            }
            'q' => self.add(48, 0, [last, 0, 0]),
            _ => last,
        };
    }
}

/// Everything about 3, 4 and 5 that both checkers share, for one language.
pub struct Rules {
    pub forms: Vec<Form>,
    pub label: i64,
    pub check: fn(&[u8]) -> reference::Answer,
}

impl Rules {
    fn end(&self, around: &Around) -> (u32, usize) {
        let answer = (self.check)(&around.table());
        (answer.number, answer.record as usize)
    }

    pub fn every_form_is_accepted_as_it_stands(&self) {
        for &form in &self.forms {
            let around = Around::new(form, self.label);
            assert_eq!(self.end(&around), (0, 0), "kind {}", form.kind);
        }
    }

    pub fn every_other_kind_is_3(&self) {
        for kind in 0..=255_u8 {
            let record = Record {
                kind,
                ..Record::default()
            };
            let answer = (self.check)(&record.bytes());
            let known = self.forms.iter().any(|form| form.kind == kind);
            assert_eq!(answer.number == 3, !known, "kind {kind}");
            assert_eq!(answer.record, u32::from(answer.number != 0), "kind {kind}");
        }
    }

    pub fn every_mark_outside_its_range_is_4(&self) {
        for &form in &self.forms {
            for mark in 0..=255_u8 {
                let mut around = Around::new(form, self.label);
                around.record().mark = mark;
                let allowed = form
                    .marks
                    .iter()
                    .any(|&(low, high)| low <= mark && mark <= high);
                let expected = match (allowed, form.kind, mark) {
                    (false, _, _) => (4, around.number),
                    (true, 10, 1..) | (true, 47, 0) => (7, around.number),
                    _ => (0, 0),
                };
                assert_eq!(
                    self.end(&around),
                    expected,
                    "kind {} mark {mark}",
                    form.kind
                );
            }
        }
    }

    pub fn a_missing_child_and_a_child_too_many_are_4(&self) {
        for &form in &self.forms {
            for (at, sort) in form.children.into_iter().enumerate() {
                let mut around = Around::new(form, self.label);
                let wrong = if sort == '.' { 1 } else { 0 };
                if at == 2 && !form.c_values.is_empty() {
                    continue;
                }
                let record = around.record();
                *[&mut record.a, &mut record.b, &mut record.c][at] = wrong;
                assert_eq!(self.end(&around), (4, around.number), "kind {}", form.kind);
            }
        }
    }

    pub fn a_child_of_another_sort_is_5(&self, sorts: &str) {
        for &form in &self.forms {
            for at in (0..3).filter(|&at| form.children[at] != '.') {
                for sort in sorts.chars().filter(|&sort| sort != form.children[at]) {
                    let mut children = form.children;
                    children[at] = sort;
                    let around = Around::with_sorts(form, children, self.label);
                    let expected = (5, around.number);
                    assert_eq!(
                        self.end(&around),
                        expected,
                        "kind {} with {sort}",
                        form.kind
                    );
                }
            }
        }
    }

    pub fn a_child_at_or_above_its_own_number_is_5(&self) {
        for &form in &self.forms {
            for at in (0..3).filter(|&at| form.children[at] != '.') {
                let own = Around::new(form, self.label).number as u16;
                for child in [own, own + 1, 4097, u16::MAX] {
                    let mut around = Around::new(form, self.label);
                    let record = around.record();
                    *[&mut record.a, &mut record.b, &mut record.c][at] = child;
                    assert_eq!(self.end(&around), (5, around.number), "kind {}", form.kind);
                }
            }
        }
    }
}
