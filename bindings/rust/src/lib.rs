//! The checker's eight calls, safe to call from Rust.
//!
//! Every call takes any bytes and ends. What an answer means is proved of the calls themselves; of
//! this wrapper nothing is proved, and it only turns the one number that a call answers into a
//! [`Result`]. Stack, threads and the platform are as `include/checker.h` says: a call needs at
//! most 96 KB of stack, and any number of threads may call at once.

pub mod raw;

use std::error::Error;
use std::fmt;

const MOST_STEPS: usize = 128;

/// The bytes of a claim, and of a step.
const CLAIM: usize = 4;
const STEP: usize = 4;

/// A page of this length is never too short for [`inverses`]: one byte for each of the most terms.
pub const MOST_TERMS: usize = 250;

/// What [`inverses`] writes where no inverse is listed.
pub const NO_INVERSE: u8 = 255;

/// A page of this length is never too short for [`check`].
pub const LONGEST_PROGRAM: usize = program_length(MOST_STEPS);

/// A page of this length is never too short for [`write`], nor for [`join`]: the contents, the most
/// terms, 64 entries of knowledge, the most steps and the claim.
pub const LONGEST_SUBMISSION: usize = 16 + 3 * MOST_TERMS + 64 + STEP * MOST_STEPS + CLAIM;

/// A page of this length is never too short for [`read_back`]: the most steps and the claim.
pub const LONGEST_READ_BACK: usize = STEP * MOST_STEPS + CLAIM;

/// A page of this length is never too short for [`deduction`], and a shorter one always is: a step
/// for each of the most terms.
pub const SHORTEST_SHEET: usize = STEP * MOST_TERMS;

/// A refusal, by a number and a place of `docs/VERDICTS.md`.
#[derive(Clone, Copy, PartialEq, Eq, Debug)]
pub struct Refusal {
    pub number: u16,
    pub place: u16,
}

impl fmt::Display for Refusal {
    fn fmt(&self, f: &mut fmt::Formatter<'_>) -> fmt::Result {
        write!(f, "refused {} {}", self.number, self.place)
    }
}

impl Error for Refusal {}

/// The length of the register program of a submission with this many steps: 3N+4.
pub const fn program_length(steps: usize) -> usize {
    3 * steps + 4
}

/// Checks a submission.
///
/// An acceptance gives the register program, for [`run`]: the first 3N+4 bytes of the page, of
/// which the first is the count N of steps. The other bytes of the page are as before. What an
/// acceptance means in each of the ways is said in `include/checker.h`. A refusal, 1 to 11 or 16,
/// leaves the whole page as it was. A page of [`LONGEST_PROGRAM`] bytes is never too short.
pub fn check<'page>(submission: &[u8], page: &'page mut [u8]) -> Result<&'page [u8], Refusal> {
    let steps = decoded(raw::check(submission, page))?;
    Ok(&page[..program_length(usize::from(steps))])
}

/// Whether some finite list of Dolev-Yao steps reaches the term of this number from the
/// submission's knowledge, without the guess. A refusal is 1 to 4 or 12.
pub fn deducible(submission: &[u8], term: u8) -> Result<bool, Refusal> {
    Ok(decoded(raw::deducible(submission, term))? == 1)
}

/// The signal of a register program over the submission's knowledge and a guess of this name.
///
/// The program that [`check`] gave signals true with the name of the submission's own guess, and
/// false with that of every wrong guess; `include/checker.h` says which names these are. The others
/// are stale, and refused with 15, which is tried last. A refusal is 1 to 5, 13 or 15.
pub fn run(submission: &[u8], name: u16, program: &[u8]) -> Result<bool, Refusal> {
    Ok(decoded(raw::run(submission, name, program))? == 1)
}

/// Writes the submission of four bodies, as an intake form holds them, to the page: contents first.
///
/// An acceptance gives the bytes written, for [`check`] and the others; they are the first of the
/// page, and its other bytes are as before. A refusal is 14 where a body is not whole records, then 2
/// where a count is outside its limits, then 11, with the submission's length as place, and leaves
/// the whole page as it was. Nothing else is looked at: whether the records are good is for [`check`]
/// to say. A page of [`LONGEST_SUBMISSION`] bytes is never too short.
pub fn write<'page>(
    terms: &[u8],
    knowledge: &[u8],
    derivation: &[u8],
    claim: &[u8],
    page: &'page mut [u8],
) -> Result<&'page [u8], Refusal> {
    let length = decoded(raw::write(terms, knowledge, derivation, claim, page))?;
    Ok(&page[..usize::from(length)])
}

/// Finds the inverses of the submission's terms and writes them to the page: one byte for each term,
/// the number of its inverse, or [`NO_INVERSE`] where none is listed. A public and a private key with
/// one name are each other's inverse; no other term has one.
///
/// An acceptance gives the bytes written; they are the first of the page, and its other bytes are as
/// before. A refusal is 1 to 4, then 11, with the count of terms as place, and leaves the whole page
/// as it was. A page of [`MOST_TERMS`] bytes is never too short.
pub fn inverses<'page>(submission: &[u8], page: &'page mut [u8]) -> Result<&'page [u8], Refusal> {
    let terms = decoded(raw::inverses(submission, page))?;
    Ok(&page[..usize::from(terms)])
}

/// The bodies that [`read_back`] gives.
#[derive(Clone, Copy, PartialEq, Eq, Debug)]
pub struct ReadBack<'page> {
    pub derivation: &'page [u8],
    pub claim: &'page [u8],
}

/// Reads a program over the submission's terms, knowledge and guess back to a derivation and a claim,
/// and writes these to the page, one after the other.
///
/// An acceptance gives the two bodies, for [`write`] beside the submission's own terms and knowledge.
/// They are the first 4n+4 bytes of the page, n the program's count of steps, and its other bytes are
/// as before. How the test is read, and with which numbers [`check`] may still refuse the two bodies,
/// is said in `include/checker.h`. A refusal is 1 to 5, 13, then 17 where a register's term is not
/// listed, with the first such register as place, then 18 where the test makes no claim, then 11, with
/// 4n+4 as place, and leaves the whole page as it was. A page of [`LONGEST_READ_BACK`] bytes is never
/// too short.
pub fn read_back<'page>(
    submission: &[u8],
    program: &[u8],
    page: &'page mut [u8],
) -> Result<ReadBack<'page>, Refusal> {
    let length = usize::from(decoded(raw::read_back(submission, program, page))?);
    let (derivation, claim) = page[..length].split_at(length - CLAIM);
    Ok(ReadBack { derivation, claim })
}

/// Shows the deduction of the term of this number: writes to the page steps that reach it from the
/// submission's knowledge, without the guess.
///
/// Where the term is not deducible there is none, and the whole page is as it was. Where it is, the
/// steps are the first bytes of the page, 4 for each step as in a derivation (rule, p, q, conclusion),
/// and the other bytes are as before; a term in the knowledge gets no steps. What holds of the steps
/// is said in `include/checker.h`; which ones are given, where there are several, is free. A refusal is
/// 1 to 4, then 12, then 19 where the page is under [`SHORTEST_SHEET`] bytes, with these as place, and
/// leaves the whole page as it was.
pub fn deduction<'page>(
    submission: &[u8],
    term: u8,
    page: &'page mut [u8],
) -> Result<Option<&'page [u8]>, Refusal> {
    let answer = usize::from(decoded(raw::deduction(submission, term, page))?);
    Ok(answer.checked_sub(1).map(|steps| &page[..STEP * steps]))
}

/// Joins two submissions, such as two listeners have of one protocol, and writes their pool to the page
/// as a submission: the first's terms, then those of the second that the first lacks, in their order and
/// renumbered; the first's knowledge, then the second's entries that are not there yet; the first's
/// derivation and claim.
///
/// An acceptance gives the pool, for [`check`] and the others; it is the first bytes of the page, and the
/// other bytes are as before. Each term of the first keeps its number, and what is deducible from either is
/// deducible from the pool. What becomes of an acceptance of the first is said in `include/checker.h`. A
/// refusal is 1 to 5 for the first submission, then 1 to 5 for the second, which the refusal doesn't tell
/// apart, then 20 where the pool would have more terms or entries than a submission may, then 11, with the
/// pool's length as place, and leaves the whole page as it was. A page of [`LONGEST_SUBMISSION`] bytes is
/// never too short.
pub fn join<'page>(
    first: &[u8],
    second: &[u8],
    page: &'page mut [u8],
) -> Result<&'page [u8], Refusal> {
    let length = decoded(raw::join(first, second, page))?;
    Ok(&page[..usize::from(length)])
}

/// The value of an answer, or its refusal.
fn decoded(answer: u32) -> Result<u16, Refusal> {
    match ((answer / raw::REFUSAL) as u16, (answer % raw::REFUSAL) as u16) {
        (0, value) => Ok(value),
        (number, place) => Err(Refusal { number, place }),
    }
}
