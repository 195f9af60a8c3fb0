//! The bodies of a submission and the limits of their counts.

table! {
    /// The bodies in the order of the contents.
    Body: BodyRow {
        /// The letter of the entry in the contents.
        letter: u8,
        /// The heading in the notation.
        word: &'static str,
        /// The bytes of a record.
        record: usize,
        /// The lowest and the highest count of records.
        least: usize,
        most: usize,
    }
    Terms      { letter: b'T', word: "terms",      record: 3, least: 1, most: 250 }
    Knowledge  { letter: b'K', word: "knowledge",  record: 1, least: 0, most: 64 }
    Derivation { letter: b'D', word: "derivation", record: 4, least: 0, most: 128 }
    Claim      { letter: b'V', word: "claim",      record: 4, least: 1, most: 1 }
}

impl Body {
    /// Whether a body may have so many records.
    pub fn allows(self, records: usize) -> bool {
        (self.least()..=self.most()).contains(&records)
    }
}

/// The bytes of an entry of the contents: letter, count, start.
pub const ENTRY_SIZE: usize = 4;

/// Where the first body starts.
pub const CONTENTS_SIZE: usize = Body::ALL.len() * ENTRY_SIZE;

/// The shortest page that a deduction is written to. It has room for a step for each of the most
/// terms.
pub const SHORTEST_SHEET: usize = 1_000;

/// A page of this length is long enough for every submission.
pub const LONGEST_SUBMISSION: usize = {
    let mut length = CONTENTS_SIZE;
    let mut position = 0;
    while position < Body::ALL.len() {
        let body = Body::ALL[position];
        length += body.record() * body.most();
        position += 1;
    }
    length
};
