//! The pool of two submissions.

use std::collections::{HashMap, HashSet};
use std::mem;

use super::contents::{self, BodyBytes};
use super::form;
use super::program::byte;
use super::put;
use super::refusal::{refuse, Checked};
use super::submission::Submission;
use super::term::Term;
use crate::tables::{padded, Body, Reason};

/// Two submissions that pass checks 1 to 5, and what their pool has, within its limits or not.
pub struct Joint {
    second: Vec<Term>,
    /// The first's terms, then those of the second that the first lacks; and the knowledge likewise.
    terms: Vec<Term>,
    knowledge: Vec<Term>,
    /// The bytes of the first's derivation and claim.
    rest: [Vec<u8>; 2],
}

impl Joint {
    pub fn of(first: &[u8], second: &[u8]) -> Checked<Joint> {
        let [_, _, derivation, claim] = contents::bodies(first)?;
        let mut read = Submission::read(first)?;
        read.claim()?;
        let store = mem::take(&mut read.store);
        let second = Submission::read_into(store, second)?;
        second.claim()?;
        Ok(Joint {
            terms: united(read.terms, &second.terms),
            knowledge: united(read.knowledge, &second.knowledge),
            second: second.terms,
            rest: [derivation.to_vec(), claim.to_vec()],
        })
    }

    /// How many terms and how many entries the pool has.
    pub fn counts(&self) -> [usize; 2] {
        [self.terms.len(), self.knowledge.len()]
    }

    /// The number in the pool of each term of the second, where the pool has no more terms than it may.
    pub fn numbers(&self) -> Vec<u8> {
        let numbers = self.by_term();
        self.second.iter().map(|term| numbers[term]).collect()
    }

    /// Writes the pool on the page. An acceptance carries its length.
    pub fn write(&self, page: &mut [u8]) -> Checked<u16> {
        let pool = self.submission()?;
        put(page, &pool)?;
        Ok(u16::try_from(pool.len()).expect("check 20 leaves short pools"))
    }

    /// The pool as a submission: check 20.
    pub fn submission(&self) -> Checked<Vec<u8>> {
        let [terms, knowledge] = self.counts();
        if !Body::Terms.allows(terms) || !Body::Knowledge.allows(knowledge) {
            return refuse(Reason::Overfull, 0);
        }
        let numbers = self.by_term();
        let terms: Vec<[u8; 3]> = self.terms.iter().map(|term| record(&numbers, term)).collect();
        let knowledge: Vec<u8> = self.knowledge.iter().map(|term| numbers[term]).collect();
        let [derivation, claim] = &self.rest;
        let bodies: BodyBytes = [terms.as_flattened(), &knowledge, derivation, claim];
        form::submission(bodies)
    }

    fn by_term(&self) -> HashMap<&Term, u8> {
        self.terms.iter().enumerate().map(|(number, term)| (term, byte(number))).collect()
    }
}

/// The first's terms, then those of the second that are not there yet, in their order.
fn united(mut first: Vec<Term>, second: &[Term]) -> Vec<Term> {
    let mut seen: HashSet<Term> = first.iter().cloned().collect();
    first.extend(second.iter().filter(|term| seen.insert((*term).clone())).cloned());
    first
}

/// The record of a term whose parts have these numbers.
fn record(numbers: &HashMap<&Term, u8>, term: &Term) -> [u8; 3] {
    let kind = term.kind().expect("the kind of a listed term");
    let [x, y] = match term.atom() {
        Some((_, name)) => name.to_be_bytes(),
        None => {
            let parts: Vec<u8> = term.parts().iter().map(|part| numbers[part]).collect();
            padded(&parts)
        }
    };
    [kind.number(), x, y]
}
