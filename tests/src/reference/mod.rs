//! An independent reading of the requirement, to compare the checker with: terms are trees, sets
//! are hash sets, and each condition is written as the requirement states it.

mod conditions;
pub mod contents;
mod deduction;
mod deductions;
mod derivation;
mod fault;
mod form;
mod guesses;
mod inverses;
mod join;
mod machine;
mod parts;
mod pool;
mod program;
mod read_back;
mod refusal;
mod rule;
mod shown_steps;
mod submission;
mod term;

use conditions::shown;
use contents::BodyBytes;
use deduction::Deduction;
use derivation::founded;
use program::Program;
use refusal::refuse;
use submission::Submission;

use crate::tables::{Kind, Reason};

pub use deductions::Deductions;
pub use fault::Fault;
pub use guesses::Guesses;
pub use join::Joint;
pub use parts::Met;
pub use pool::{numbers_in_pool, PoolFault};
pub use refusal::{code, Checked, Refusal, REFUSAL};
pub use submission::records;

/// Checks a submission. An acceptance carries the number of steps and writes the program on the
/// page.
pub fn check(submission: &[u8], page: &mut [u8]) -> Checked<u8> {
    let program = program(submission)?;
    put(page, &program)?;
    Ok(program[0])
}

/// The program that checking writes on a page that is long enough.
pub fn program(submission: &[u8]) -> Checked<Vec<u8>> {
    Ok(accepted_program(submission)?.bytes())
}

/// Whether the term with this number is deducible from the knowledge alone.
pub fn deducible(submission: &[u8], number: u8) -> Checked<bool> {
    let mut submission = Submission::read(submission)?;
    let deduction = Deduction::from_knowledge(&mut submission.store, &submission.knowledge);
    match submission.term(number) {
        Some(term) => Ok(deduction.reaches(term)),
        None => refuse(Reason::NoSuchTerm, 0),
    }
}

/// The kinds of key on which it depends that the term with this number is deducible: it would not
/// be if what is under keys of one such kind stayed shut. None where it isn't deducible.
pub fn needed_keys(submission: &[u8], number: u8) -> Checked<Vec<Kind>> {
    let mut submission = Submission::read(submission)?;
    let Some(term) = submission.term(number).cloned() else {
        return refuse(Reason::NoSuchTerm, 0);
    };
    let mut is_deducible_without = |shut: &[Kind]| {
        Deduction::without_keys(&mut submission.store, &submission.knowledge, shut).reaches(&term)
    };
    let keys = Kind::locking();
    if is_deducible_without(&keys) || !is_deducible_without(&[]) {
        return Ok(vec![]);
    }
    Ok(keys.into_iter().filter(|&kind| !is_deducible_without(&[kind])).collect())
}

/// The signal of the program when the guess has this name.
pub fn run(submission: &[u8], name: u16, program: &[u8]) -> Checked<bool> {
    Guesses::of(submission)?.run(name, program)
}

/// The kind and name of the submission's own guess.
pub fn guess(submission: &[u8]) -> Checked<(Kind, u16)> {
    Guesses::of(submission).map(|guesses| (guesses.kind(), guesses.own()))
}

/// Whether the name is that of a wrong guess.
pub fn is_wrong_guess(submission: &[u8], name: u16) -> Checked<bool> {
    Guesses::of(submission).map(|guesses| guesses.is_wrong(name))
}

/// Writes the submission with these bodies on the page. An acceptance carries its length.
pub fn write(bodies: BodyBytes, page: &mut [u8]) -> Checked<u16> {
    let submission = form::submission(bodies)?;
    put(page, &submission)?;
    Ok(u16::try_from(submission.len()).expect("check 2 leaves short bodies"))
}

/// Writes the number of each term's inverse on the page. An acceptance carries the count of terms.
pub fn inverses(submission: &[u8], page: &mut [u8]) -> Checked<u8> {
    let submission = Submission::read(submission)?;
    let numbers = inverses::numbers(&submission.terms);
    put(page, &numbers)?;
    Ok(u8::try_from(numbers.len()).expect("check 2 leaves a count of one byte"))
}

/// Reads a program back and writes its derivation, then its claim, on the page. An acceptance carries
/// their length.
pub fn read_back(submission: &[u8], program: &[u8], page: &mut [u8]) -> Checked<u16> {
    let bodies = derivation_and_claim(submission, program)?;
    put(page, &bodies)?;
    Ok(u16::try_from(bodies.len()).expect("check 13 leaves short programs"))
}

/// What reading back writes on a page that is long enough.
pub fn derivation_and_claim(submission: &[u8], program: &[u8]) -> Checked<Vec<u8>> {
    let mut submission = Submission::read(submission)?;
    let own = submission.claim()?;
    read_back::bodies(&mut submission, &own, program)
}

/// Writes steps on the page that show that the term with this number is deducible from the knowledge
/// alone, if it is. The answer is 0 for no, and for yes one more than the count of steps.
pub fn deduction(submission: &[u8], number: u8, page: &mut [u8]) -> Checked<u8> {
    let Some(steps) = Deductions::of(submission)?.steps(number, page.len())? else {
        return Ok(0);
    };
    let bytes = steps.as_flattened();
    page[..bytes.len()].copy_from_slice(bytes);
    Ok(u8::try_from(1 + steps.len()).expect("there are at most as many steps as terms"))
}

/// Joins two submissions and writes their pool on the page. An acceptance carries its length.
pub fn join(first: &[u8], second: &[u8], page: &mut [u8]) -> Checked<u16> {
    Joint::of(first, second)?.write(page)
}

/// What the program `verdict` prints.
pub fn verdict(submission: &[u8]) -> String {
    match accepted_program(submission) {
        Ok(program) => format!("accepted {}\n{program}", program.instructions.len()),
        Err(Refusal { reason, place }) => format!("refused {} {place}\n", reason.number()),
    }
}

/// Check 11: puts the bytes at the start of a page that is long enough.
fn put(page: &mut [u8], bytes: &[u8]) -> Checked<()> {
    match page.get_mut(..bytes.len()) {
        Some(start) => start.copy_from_slice(bytes),
        None => return refuse(Reason::Page, bytes.len()),
    }
    Ok(())
}

/// The program of a submission that passes all checks but that of the page.
fn accepted_program(submission: &[u8]) -> Checked<Program> {
    let mut submission = Submission::read(submission)?;
    let claim = submission.claim()?;
    let steps = founded(&mut submission, &claim)?;
    shown(&mut submission, &claim, &steps)?;
    Ok(Program::of(&submission, &claim, &steps))
}
