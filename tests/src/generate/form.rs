//! Forms: four bodies as an intake form holds them, and a page for their submission.

use super::random::Random;
use crate::reference::contents::BodyBytes;
use crate::tables::{Body, CONTENTS_SIZE, LONGEST_SUBMISSION};

pub struct Form {
    /// In the order of the contents.
    bodies: [Vec<u8>; Body::ALL.len()],
    /// The page before the submission is written.
    pub page: Vec<u8>,
}

impl Form {
    /// These bodies, and a page of this length on which no byte is 0.
    pub fn new(bodies: BodyBytes, page: usize) -> Form {
        let bodies = bodies.map(<[u8]>::to_vec);
        Form { bodies, page: (0..page).map(|at| (at % 255) as u8 + 1).collect() }
    }

    /// So many records of zeros in each body, and a page on which every submission has room.
    pub fn zeros(records: usize) -> Form {
        let bodies = Body::ALL.map(|body| vec![0; records * body.record()]);
        Form::new(bodies.each_ref().map(Vec::as_slice), LONGEST_SUBMISSION)
    }

    pub fn bodies(&self) -> BodyBytes<'_> {
        self.bodies.each_ref().map(Vec::as_slice)
    }
}

/// These bodies as they are, and a page that is long enough.
pub fn unchanged(random: &mut Random, bodies: BodyBytes) -> Form {
    let length = length(&bodies);
    Form::new(bodies, random.pick(&[length, length + 1, LONGEST_SUBMISSION]))
}

/// These bodies, of which some may get another count of records or end within a record, and a page
/// of any length.
pub fn changed(random: &mut Random, bodies: BodyBytes) -> Form {
    let mut changed = bodies.map(<[u8]>::to_vec);
    recount(random, &mut changed);
    if random.chance(25) {
        tear(random, &mut changed);
    }
    let changed = changed.each_ref().map(Vec::as_slice);
    let page = page_length(random, length(&changed).min(LONGEST_SUBMISSION));
    Form::new(changed, page)
}

fn length(bodies: &BodyBytes) -> usize {
    CONTENTS_SIZE + bodies.concat().len()
}

/// Gives no body, one, about every second, or all another count of records.
fn recount(random: &mut Random, bodies: &mut [Vec<u8>]) {
    let chosen = random.pick(&Body::ALL);
    let manner = random.weighted(&[300, 400, 190, 100, 8, 2]);
    for (body, bytes) in Body::ALL.into_iter().zip(bodies) {
        let count = match manner {
            1 if body == chosen => near_limit(random, body),
            2 if random.chance(50) => near_limit(random, body),
            3 => body.most(),
            4 if body == chosen => over_two_bytes(random, body),
            5 if random.chance(50) => over_two_bytes(random, body),
            _ => continue,
        };
        *bytes = random.bytes(count * body.record());
    }
}

/// A count at one of the body's limits or just over it, or around what a byte holds. The last one is
/// within the limits in its low byte.
fn near_limit(random: &mut Random, body: Body) -> usize {
    let (least, most) = (body.least(), body.most());
    let over_a_byte = 256 + random.between(least, most);
    random.pick(&[0, least, most - 1, most, most + 1, most + 1, 255, 256, 257, over_a_byte])
}

/// A count that is within the body's limits in its low two bytes, one whose records of 4 bytes have
/// such a length, or one that is simply large.
fn over_two_bytes(random: &mut Random, body: Body) -> usize {
    let within = random.between(body.least(), body.most());
    random.pick(&[65_536 + within, 65_536 / 4 + within, 70_000])
}

/// Lets one body, or several, end within a record.
fn tear(random: &mut Random, bodies: &mut [Vec<u8>]) {
    let chosen = random.pick(&[Body::Terms, Body::Derivation, Body::Claim]);
    for (body, bytes) in Body::ALL.into_iter().zip(bodies) {
        if body.record() == 1 || body != chosen && random.chance(80) {
            continue;
        }
        let part = random.between(1, body.record() - 1);
        if bytes.is_empty() || random.chance(50) {
            bytes.extend(random.bytes(part));
        } else {
            bytes.truncate(bytes.len() - part);
        }
    }
}

/// The length of a page for a submission of `needed` bytes: none, too short, exact, longer, or one
/// that is too short in its low two bytes.
fn page_length(random: &mut Random, needed: usize) -> usize {
    match random.weighted(&[5, 15, 10, 25, 15, 28, 2]) {
        0 => 0,
        1 => needed - 1,
        2 => random.below(needed),
        3 => needed,
        4 => needed + 1,
        5 => LONGEST_SUBMISSION,
        _ => 65_536 + random.below(needed),
    }
}
