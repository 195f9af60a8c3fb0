//! The steps that show that terms are deducible from the knowledge alone.

use std::collections::HashMap;

use super::derivation::Step;
use super::fault::{self, Fault};
use super::program::byte;
use super::refusal::{refuse, Checked};
use super::shown_steps::Reached;
use super::submission::Submission;
use super::term::Term;
use crate::tables::{padded, Reason, SHORTEST_SHEET};

/// A submission that passes checks 1 to 4, to ask for many terms.
pub struct Deductions {
    submission: Submission,
    reached: Reached,
    /// What would be reached if the guess were known; looked for when it is needed. Nothing where the
    /// claim has no guess.
    with_guess: Option<Option<Reached>>,
}

impl Deductions {
    pub fn of(submission: &[u8]) -> Checked<Deductions> {
        let mut submission = Submission::read(submission)?;
        let reached = Reached::from(&mut submission.store, &submission.knowledge);
        Ok(Deductions { submission, reached, with_guess: None })
    }

    /// Whether the term with this number is deducible.
    pub fn deducible(&self, number: u8) -> Checked<bool> {
        Ok(self.reached.gives(self.listed(number)?))
    }

    /// The same, to be shown on a page of this length.
    pub fn deducible_on(&self, number: u8, page: usize) -> Checked<bool> {
        self.listed(number)?;
        if page < SHORTEST_SHEET {
            return refuse(Reason::ShortSheet, SHORTEST_SHEET);
        }
        self.deducible(number)
    }

    /// The steps to the term with this number, on a page of this length; none where it isn't deducible.
    pub fn steps(&self, number: u8, page: usize) -> Checked<Option<Vec<[u8; 4]>>> {
        if !self.deducible_on(number, page)? {
            return Ok(None);
        }
        let listed = self.submission.terms.iter().enumerate();
        let numbers: HashMap<&Term, u8> =
            listed.map(|(number, term)| (term, byte(number))).collect();
        let steps = self.reached.steps_to(self.listed(number)?);
        Ok(Some(steps.iter().map(|step| record(&numbers, step)).collect()))
    }

    /// The term with this number, by check 12.
    fn listed(&self, number: u8) -> Checked<&Term> {
        self.submission.term(number).map_or_else(|| refuse(Reason::NoSuchTerm, 0), Ok)
    }

    /// Whether these are steps to the listed term with this number, with all that has to hold of them.
    pub fn verify(&mut self, number: u8, steps: &[[u8; 4]]) -> Result<(), Fault> {
        let term = self.listed(number).expect("a listed term").clone();
        fault::find(&mut self.submission, &term, steps)
    }

    /// How many terms taking apart reaches that are not in the knowledge.
    pub fn taken(&self) -> usize {
        self.reached.taken()
    }

    /// Whether the term with this number would be deducible if the guess were known.
    pub fn deducible_with_guess(&mut self, number: u8) -> bool {
        let Deductions { submission, with_guess, .. } = self;
        let reached = with_guess.get_or_insert_with(|| {
            let guess = submission.claim().ok()?.guess;
            let known = [&submission.knowledge[..], &[guess]].concat();
            Some(Reached::from(&mut submission.store, &known))
        });
        let term = submission.term(number).expect("a listed term");
        reached.as_ref().is_some_and(|reached| reached.gives(term))
    }
}

fn record(numbers: &HashMap<&Term, u8>, step: &Step) -> [u8; 4] {
    let number = |term| numbers[term];
    let premises: Vec<u8> = step.premises.iter().map(number).collect();
    let [p, q] = padded(&premises);
    [step.rule.number(), p, q, number(&step.conclusion)]
}
