//! The steps of a derivation: checks 6 and 7.

use std::collections::HashSet;

use super::refusal::{refuse, Checked};
use super::rule::taken_apart;
use super::submission::{Claim, Submission};
use super::term::{Operands, Term};
use crate::tables::{used, Reason, Rule};

/// A step that passes check 6.
#[derive(Clone)]
pub struct Step {
    pub rule: Rule,
    pub premises: Operands,
    pub conclusion: Term,
}

impl Step {
    /// Whether one of the two steps builds the compound that the other takes apart.
    pub fn undoes(&self, other: &Step) -> bool {
        let (builder, taker) = if self.rule.builds() { (self, other) } else { (other, self) };
        builder.rule.builds() && !taker.rule.builds() && taker.premises[0] == builder.conclusion
    }

    /// Whether the two steps differ in the rule or in the set of premises.
    pub fn differs(&self, other: &Step) -> bool {
        self.rule != other.rule || self.premise_set() != other.premise_set()
    }

    fn premise_set(&self) -> HashSet<&Term> {
        self.premises.iter().collect()
    }
}

/// The steps, each founded on the knowledge, the guess where it counts as known, and the earlier
/// conclusions.
pub fn founded(submission: &mut Submission, claim: &Claim) -> Checked<Vec<Step>> {
    let mut known: HashSet<Term> =
        submission.knowledge.iter().chain(claim.known_guess()).cloned().collect();
    let mut steps = Vec::new();
    for number in 0..submission.derivation.len() {
        let Some(step) = read_step(submission, submission.derivation[number]) else {
            return refuse(Reason::Step, number);
        };
        if !step.premises.iter().all(|premise| known.contains(premise)) {
            return refuse(Reason::Unfounded, number);
        }
        known.insert(step.conclusion.clone());
        steps.push(step);
    }
    Ok(steps)
}

/// Check 6 of one step.
pub fn read_step(submission: &mut Submission, [rule, p, q, conclusion]: [u8; 4]) -> Option<Step> {
    let rule = Rule::from_number(rule)?;
    let premises = Operands::numbered(&submission.terms, used(rule.operands(), &[p, q])?)?;
    let conclusion = submission.term(conclusion)?.clone();
    let concluded = if rule.builds() {
        submission.store.headed(rule, premises.clone())
    } else {
        taken_apart(rule, &premises)?
    };
    (concluded == conclusion).then_some(Step { rule, premises, conclusion })
}
