//! Counts of what the call for inverses wrote, by the kind of the term, and of its pages.

use checker_tests::tables::{Body, Kind, NO_INVERSE};

use crate::tally::cells;

type Record = [u8; 3];

/// What the byte written for a term may show.
#[derive(Clone, Copy, PartialEq, Eq)]
enum Row {
    /// The term is no key; and a listed key has the two bytes of its record for a name.
    NoKey,
    NoKeyButName,
    /// The inverse of the key is not listed; but a record is that differs from it in this byte only.
    Alone,
    AloneBut(Byte),
    /// The inverse is listed before the key or after it; and after a record that differs from it in
    /// this byte only.
    Before,
    After,
    Behind(Byte),
}

/// A byte of an atom's record.
#[derive(Clone, Copy, PartialEq, Eq)]
enum Byte {
    Kind,
    High,
    Low,
}

impl Byte {
    const ALL: [Byte; 3] = [Byte::Kind, Byte::High, Byte::Low];

    fn word(self) -> &'static str {
        match self {
            Byte::Kind => "kind",
            Byte::High => "high",
            Byte::Low => "low",
        }
    }

    /// The bytes for which one of the records differs in this byte only.
    fn differing(records: &[Record], from: Record) -> impl Iterator<Item = Byte> + '_ {
        let differs_only_in = move |record: &Record, byte: Byte| {
            (0..from.len()).all(|at| (record[at] != from[at]) == (at == byte as usize))
        };
        Byte::ALL
            .into_iter()
            .filter(move |&byte| records.iter().any(|record| differs_only_in(record, byte)))
    }
}

impl Row {
    fn all() -> Vec<Row> {
        let alone_but = Byte::ALL.map(Row::AloneBut);
        let behind = Byte::ALL.map(Row::Behind);
        let no_key = [Row::NoKey, Row::NoKeyButName, Row::Alone];
        [&no_key[..], &alone_but, &[Row::Before, Row::After], &behind].concat()
    }

    fn title(self) -> String {
        match self {
            Row::NoKey => "no key".to_string(),
            Row::NoKeyButName => "no key, a key's name".to_string(),
            Row::Alone => "key alone".to_string(),
            Row::AloneBut(byte) => format!("alone, other {}", byte.word()),
            Row::Before => "inverse before".to_string(),
            Row::After => "inverse after".to_string(),
            Row::Behind(byte) => format!("behind other {}", byte.word()),
        }
    }

    /// The kinds of term for which the row has to be reached.
    fn kinds(self) -> Vec<Kind> {
        let is_no_key = matches!(self, Row::NoKey | Row::NoKeyButName);
        Kind::ALL.into_iter().filter(|kind| kind.inverse().is_none() == is_no_key).collect()
    }

    /// The rows of the term with this number, for which this was written.
    fn of(terms: &[Record], number: usize, written: u8) -> Vec<Row> {
        let [_, high, low] = terms[number];
        let Some(inverse) = kind(terms[number]).inverse() else {
            let is_named = |(key, _): &(Kind, Kind)| terms.contains(&[key.number(), high, low]);
            let named = Kind::inverses().iter().any(is_named);
            return [Row::NoKey].into_iter().chain(named.then_some(Row::NoKeyButName)).collect();
        };
        let mut others = terms.to_vec();
        if written != NO_INVERSE {
            others.truncate(written.into());
        }
        others.retain(|&record| record != terms[number]);
        let differing = Byte::differing(&others, [inverse.number(), high, low]);
        if written == NO_INVERSE {
            return [Row::Alone].into_iter().chain(differing.map(Row::AloneBut)).collect();
        }
        let place = if usize::from(written) < number { Row::Before } else { Row::After };
        [place].into_iter().chain(differing.map(Row::Behind)).collect()
    }
}

fn kind([number, ..]: Record) -> Kind {
    Kind::from_number(number).expect("check 3 leaves kinds")
}

/// Whether a row or a column is that of a page of this length for so many terms.
type Fits = fn(terms: usize, page: usize) -> bool;

const LENGTHS: [(&str, Fits); 4] = [
    ("page, empty", |_, page| page == 0),
    ("page, a byte short", |terms, page| page + 1 == terms),
    ("page, exact", |terms, page| page == terms),
    ("page, longer", |terms, page| page > terms),
];

const COUNTS: [(&str, Fits); 3] = [
    ("least", |terms, _| terms == Body::Terms.least()),
    ("between", |terms, _| Body::Terms.least() < terms && terms < Body::Terms.most()),
    ("most", |terms, _| terms == Body::Terms.most()),
];

pub struct Keys {
    rows: Vec<(Row, [u64; Kind::ALL.len()])>,
    pages: [[u64; COUNTS.len()]; LENGTHS.len()],
}

impl Default for Keys {
    fn default() -> Keys {
        let rows = Row::all().into_iter().map(|row| (row, [0; Kind::ALL.len()])).collect();
        Keys { rows, pages: Default::default() }
    }
}

impl Keys {
    /// Counts what was written for these terms.
    pub fn count_written(&mut self, terms: &[Record], written: &[u8]) {
        for (number, &written) in written.iter().enumerate() {
            for row in Row::of(terms, number, written) {
                let found = self.rows.iter_mut().find(|(other, _)| *other == row);
                let (_, counts) = found.expect("all rows are there");
                counts[kind(terms[number]) as usize] += 1;
            }
        }
    }

    /// Counts a page of this length for a submission of so many terms that passes checks 1 to 4.
    pub fn count_page(&mut self, terms: usize, page: usize) {
        for (counts, (_, has_length)) in self.pages.iter_mut().zip(LENGTHS) {
            for (count, (_, has_count)) in counts.iter_mut().zip(COUNTS) {
                *count += u64::from(has_length(terms, page) && has_count(terms, page));
            }
        }
    }

    pub fn print(&self) {
        println!("{}", cells("inverse, term", Kind::ALL, Kind::word));
        for (row, counts) in &self.rows {
            println!("{}", cells(&row.title(), Kind::ALL, |kind| counts[kind as usize]));
        }
        println!("\n{}", cells("inverses, terms", COUNTS, |(title, _)| title));
        for (counts, (title, _)) in self.pages.iter().zip(LENGTHS) {
            println!("{}", cells(title, counts, |count| count));
        }
    }

    /// What should have been reached and was not.
    pub fn missing(&self) -> Vec<String> {
        let mut missing = Vec::new();
        for (row, counts) in &self.rows {
            let never = row.kinds().into_iter().filter(|&kind| counts[kind as usize] == 0);
            missing.extend(never.map(|kind| format!("inverse {}: {}", row.title(), kind.word())));
        }
        for (counts, (length, _)) in self.pages.iter().zip(LENGTHS) {
            let never = counts.iter().zip(COUNTS).filter(|(&count, _)| count == 0);
            missing
                .extend(never.map(|(_, (count, _))| format!("inverses {length}, {count} terms")));
        }
        missing
    }
}
