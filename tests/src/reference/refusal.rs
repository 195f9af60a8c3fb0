//! Refusals: a reason and a place.

use crate::tables::Reason;

#[derive(Clone, Copy, PartialEq, Eq, Debug)]
pub struct Refusal {
    pub reason: Reason,
    pub place: usize,
}

/// What a check passes on, or the refusal.
pub type Checked<T> = Result<T, Refusal>;

pub fn refuse<T>(reason: Reason, place: usize) -> Checked<T> {
    Err(Refusal { reason, place })
}

/// What the C boundary multiplies the number of a refusal with before it adds the place. Every
/// other answer is below it.
pub const REFUSAL: u32 = 65_536;

/// The answer as one number, as the C boundary gives it.
pub fn code<T: Into<u32>>(answer: Checked<T>) -> u32 {
    match answer {
        Ok(value) => value.into(),
        Err(Refusal { reason, place }) => reason.number() * REFUSAL + place as u32,
    }
}
