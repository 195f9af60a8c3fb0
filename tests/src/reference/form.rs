//! The submission of four bodies that an intake form holds separately.

use super::contents::{within_limits, BodyBytes};
use super::refusal::{refuse, Checked};
use crate::tables::{Body, Reason, CONTENTS_SIZE, ENTRY_SIZE};

/// The submission with these bodies: whole records, counted within their limits.
pub fn submission(bodies: BodyBytes) -> Checked<Vec<u8>> {
    whole(&bodies)?;
    within_limits(&bodies)?;
    let mut submission = vec![0; CONTENTS_SIZE + bodies.concat().len()];
    let mut start = CONTENTS_SIZE;
    for (position, (body, bytes)) in Body::ALL.into_iter().zip(bodies).enumerate() {
        let entry = entry(body, bytes.len() / body.record(), start);
        submission[ENTRY_SIZE * position..][..ENTRY_SIZE].copy_from_slice(&entry);
        submission[start..][..bytes.len()].copy_from_slice(bytes);
        start += bytes.len();
    }
    Ok(submission)
}

/// Check 14: no body ends within a record.
fn whole(bodies: &BodyBytes) -> Checked<()> {
    for (body, bytes) in Body::ALL.into_iter().zip(bodies) {
        if bytes.len() % body.record() != 0 {
            return refuse(Reason::Ragged, 0);
        }
    }
    Ok(())
}

/// The entry of the contents: a letter, a one-byte count, a two-byte start, high byte first.
fn entry(body: Body, count: usize, start: usize) -> [u8; ENTRY_SIZE] {
    let byte = |number| u8::try_from(number).expect("check 2 leaves short bodies");
    [body.letter(), byte(count), byte(start / 256), byte(start % 256)]
}
