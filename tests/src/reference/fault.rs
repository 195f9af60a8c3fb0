//! What has to hold of steps that show that a term is deducible, whichever they are.

use std::collections::HashSet;

use super::derivation::{read_step, Step};
use super::submission::Submission;
use super::term::Term;

/// What is wrong with such steps.
#[derive(Clone, Copy, PartialEq, Eq, Debug)]
pub enum Fault {
    /// There are more steps than listed terms.
    TooMany,
    /// The step of this number has no rule, a number that is not below T, a q that is not 0 beside one
    /// premise, or not the shape of its rule.
    NoStep(usize),
    /// A premise of this step is neither in the knowledge nor concluded by an earlier step. The guess
    /// counts for nothing.
    Unfounded(usize),
    /// The conclusion of this step is in the knowledge, or concluded by an earlier step.
    KnownBefore(usize),
    /// The last conclusion is another term; or there is no step, and the term is not in the knowledge.
    OtherEnd,
    /// No later step has the conclusion of this step, which isn't the last, for a premise.
    NotNeeded(usize),
}

/// The first fault of these steps to the term, by the order above and then by the step's number.
pub fn find(submission: &mut Submission, term: &Term, steps: &[[u8; 4]]) -> Result<(), Fault> {
    if steps.len() > submission.terms.len() {
        return Err(Fault::TooMany);
    }
    let mut read = Vec::new();
    for (number, &record) in steps.iter().enumerate() {
        read.push(read_step(submission, record).ok_or(Fault::NoStep(number))?);
    }
    let mut known: HashSet<&Term> = submission.knowledge.iter().collect();
    for (number, step) in read.iter().enumerate() {
        if !step.premises.iter().all(|premise| known.contains(premise)) {
            return Err(Fault::Unfounded(number));
        }
        if !known.insert(&step.conclusion) {
            return Err(Fault::KnownBefore(number));
        }
    }
    let ends = match read.last() {
        Some(last) => last.conclusion == *term,
        None => submission.knowledge.contains(term),
    };
    if !ends {
        return Err(Fault::OtherEnd);
    }
    first_not_needed(&read).map_or(Ok(()), |number| Err(Fault::NotNeeded(number)))
}

/// The first step, other than the last, whose conclusion is no premise of a later one.
fn first_not_needed(steps: &[Step]) -> Option<usize> {
    let mut first = None;
    let mut premises = HashSet::new();
    for (number, step) in steps.iter().enumerate().rev() {
        if number + 1 < steps.len() && !premises.contains(&step.conclusion) {
            first = Some(number);
        }
        premises.extend(step.premises.iter());
    }
    first
}
