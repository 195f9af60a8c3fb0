//! The table of contents: checks 1 and 2.

use super::refusal::{refuse, Checked};
use crate::tables::{Body, Reason, CONTENTS_SIZE, ENTRY_SIZE};

/// The bodies in the order of the contents.
pub type BodyBytes<'a> = [&'a [u8]; Body::ALL.len()];

/// The bodies of a submission that passes checks 1 and 2.
pub fn bodies(submission: &[u8]) -> Checked<BodyBytes<'_>> {
    let Some(bodies) = divided(submission) else {
        return refuse(Reason::Contents, 0);
    };
    within_limits(&bodies)?;
    Ok(bodies)
}

/// The bodies as the contents divide the submission, whatever their counts; nothing where a
/// letter, a start or the length is wrong.
fn divided(submission: &[u8]) -> Option<BodyBytes<'_>> {
    let contents = submission.get(..CONTENTS_SIZE)?;
    let mut bodies = BodyBytes::default();
    let mut end = CONTENTS_SIZE;
    for (body, entry) in Body::ALL.into_iter().zip(contents.chunks_exact(ENTRY_SIZE)) {
        let start = usize::from(u16::from_be_bytes([entry[2], entry[3]]));
        if entry[0] != body.letter() || start != end {
            return None;
        }
        end = start + usize::from(entry[1]) * body.record();
        bodies[body as usize] = submission.get(start..end)?;
    }
    (end == submission.len()).then_some(bodies)
}

/// Check 2, of bodies of whole records.
pub fn within_limits(bodies: &BodyBytes) -> Checked<()> {
    for (position, (body, bytes)) in Body::ALL.into_iter().zip(bodies).enumerate() {
        if !body.allows(bytes.len() / body.record()) {
            return refuse(Reason::Count, position);
        }
    }
    Ok(())
}
