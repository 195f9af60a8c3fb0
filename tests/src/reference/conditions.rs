//! What the claim has to show: conditions 3 to 5, or that a term is deducible. The first two
//! conditions are checks 5 to 7: every step is founded, and the verifying step is one of them.

use super::deduction::Deduction;
use super::derivation::Step;
use super::refusal::{refuse, Checked};
use super::submission::{Claim, Named, Submission};
use crate::tables::{Claimed, Companion, Deducible, Reason, SecondWay};

/// Checks 8 to 10, or in their place check 16.
pub fn shown(submission: &mut Submission, claim: &Claim, steps: &[Step]) -> Checked<()> {
    match claim.way.claimed() {
        Claimed::Verifier(second) => verified(submission, claim, second, steps),
        Claimed::Deducible(term) => given(submission, claim, term, steps),
    }
}

/// Checks 8 to 10.
fn verified(
    submission: &mut Submission,
    claim: &Claim,
    second: SecondWay,
    steps: &[Step],
) -> Checked<()> {
    let verifying = claim.verifying();
    let deduction = Deduction::from_knowledge(&mut submission.store, &submission.knowledge);
    if steps[verifying].premises.iter().all(|premise| deduction.reaches(premise)) {
        return refuse(Reason::Reachable, verifying);
    }
    if !has_second_way(submission, claim, second, steps) {
        return refuse(Reason::NoSecondWay, verifying);
    }
    match first_undone(claim, steps) {
        Some(step) => refuse(Reason::Undone, step),
        None => Ok(()),
    }
}

fn has_second_way(
    submission: &Submission,
    claim: &Claim,
    second: SecondWay,
    steps: &[Step],
) -> bool {
    let verifying = &steps[claim.verifying()];
    let verifier = &verifying.conclusion;
    let known_before = |term| submission.knowledge.contains(term) || *term == claim.guess;
    match second {
        SecondWay::AnotherStep => {
            let other = &steps[claim.companion];
            other.conclusion == *verifier && other.differs(verifying)
        }
        SecondWay::KnownBefore => known_before(verifier),
        SecondWay::Inverse => {
            let inverse = &submission.terms[claim.companion];
            verifier.is_inverse_of(inverse)
                && (known_before(inverse) || steps.iter().any(|step| step.conclusion == *inverse))
        }
    }
}

/// The lowest step that the verifying step undoes, or the companion step.
fn first_undone(claim: &Claim, steps: &[Step]) -> Option<usize> {
    let mut undoing = vec![&steps[claim.verifying()]];
    if claim.way.companion() == Companion::Step {
        undoing.push(&steps[claim.companion]);
    }
    steps.iter().position(|step| undoing.iter().any(|by| by.undoes(step)))
}

/// Check 16: the named step concludes the term claimed, or the knowledge has it.
fn given(
    submission: &Submission,
    claim: &Claim,
    deducible: Deducible,
    steps: &[Step],
) -> Checked<()> {
    let is_given = match claim.named {
        Named::Step(step) => claim.is_about(deducible, &steps[step].conclusion),
        Named::Entry => claim.entry(deducible, &submission.knowledge).is_some(),
    };
    if is_given {
        Ok(())
    } else {
        refuse(Reason::NotShown, 0)
    }
}
