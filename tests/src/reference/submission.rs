//! A submission over tree terms: checks 1 to 5.

use std::collections::HashSet;

use super::contents;
use super::refusal::{refuse, Checked};
use super::term::{Operands, Store, Term};
use crate::tables::{used, Deducible, Kind, Reason, Way, IN_KNOWLEDGE};

/// A submission that passes checks 1 to 4. Derivation and claim are kept as records.
pub struct Submission {
    pub store: Store,
    pub terms: Vec<Term>,
    pub knowledge: Vec<Term>,
    pub derivation: Vec<[u8; 4]>,
    claim: [u8; 4],
}

/// A claim that passes check 5. The companion numbers what the way says.
pub struct Claim {
    pub guess: Term,
    pub named: Named,
    pub way: Way,
    pub companion: usize,
}

/// What the number of a claim's step names: a step, or an entry of the knowledge.
#[derive(Clone, Copy)]
pub enum Named {
    Step(usize),
    Entry,
}

impl Claim {
    /// The kind and name of the guess.
    pub fn atom(&self) -> (Kind, u16) {
        self.guess.atom().expect("check 5 leaves an atom")
    }

    /// The guess, in a way in which it counts as known.
    pub fn known_guess(&self) -> Option<&Term> {
        self.way.knows_guess().then_some(&self.guess)
    }

    /// The verifying step, in a way that has one.
    pub fn verifying(&self) -> usize {
        match self.named {
            Named::Step(step) => step,
            Named::Entry => panic!("check 5 leaves a step"),
        }
    }

    /// Whether the term is the one that the claim says is deducible.
    pub fn is_about(&self, deducible: Deducible, term: &Term) -> bool {
        match deducible {
            Deducible::Guess => *term == self.guess,
            Deducible::Inverse => term.is_inverse_of(&self.guess),
        }
    }

    /// The position in the knowledge of that term.
    pub fn entry(&self, deducible: Deducible, knowledge: &[Term]) -> Option<usize> {
        knowledge.iter().position(|entry| self.is_about(deducible, entry))
    }
}

impl Submission {
    pub fn read(bytes: &[u8]) -> Checked<Submission> {
        Submission::read_into(Store::default(), bytes)
    }

    /// The same, with the terms in a store that may have others.
    pub fn read_into(mut store: Store, bytes: &[u8]) -> Checked<Submission> {
        let [terms, knowledge, derivation, claim] = contents::bodies(bytes)?;
        let terms = read_terms(&mut store, terms)?;
        let knowledge = read_knowledge(&terms, knowledge)?;
        let derivation = records(derivation).collect();
        let claim = records(claim).next().expect("check 2 leaves one claim");
        Ok(Submission { store, terms, knowledge, derivation, claim })
    }

    pub fn term(&self, number: u8) -> Option<&Term> {
        self.terms.get(usize::from(number))
    }

    pub fn claim(&self) -> Checked<Claim> {
        self.read_claim().map_or_else(|| refuse(Reason::Claim, 0), Ok)
    }

    fn read_claim(&self) -> Option<Claim> {
        let [guess, step, way, companion] = self.claim;
        let way = Way::from_letter(way)?;
        let may_be_guess =
            |term: &&Term| term.kind().is_some_and(|kind| way.guesses().contains(&kind));
        let guess = self.term(guess).filter(may_be_guess)?.clone();
        let named = self.named(step, way)?;
        let companion = usize::from(companion);
        let companions = way.companion().values(self.derivation.len(), self.terms.len());
        (companion < companions).then_some(Claim { guess, named, way, companion })
    }

    /// What a step's number names in this way.
    fn named(&self, step: u8, way: Way) -> Option<Named> {
        if step == IN_KNOWLEDGE && way.may_be_entry() {
            return Some(Named::Entry);
        }
        let step = usize::from(step);
        (step < self.derivation.len()).then_some(Named::Step(step))
    }
}

/// The body's records of `N` bytes each.
pub fn records<const N: usize>(body: &[u8]) -> impl Iterator<Item = [u8; N]> + Clone + '_ {
    body.chunks_exact(N).map(|record| record.try_into().expect("a chunk of N bytes"))
}

/// Check 3.
fn read_terms(store: &mut Store, body: &[u8]) -> Checked<Vec<Term>> {
    let mut terms = Vec::new();
    let mut seen = HashSet::new();
    for (number, record) in records(body).enumerate() {
        match read_term(store, &terms, record) {
            Some(term) if seen.insert(term.clone()) => terms.push(term),
            _ => return refuse(Reason::Term, number),
        }
    }
    Ok(terms)
}

fn read_term(store: &mut Store, earlier: &[Term], [kind, x, y]: [u8; 3]) -> Option<Term> {
    let kind = Kind::from_number(kind)?;
    let Some(rule) = kind.rule() else {
        return Some(store.atom(kind, u16::from_be_bytes([x, y])));
    };
    let operands = Operands::numbered(earlier, used(rule.operands(), &[x, y])?)?;
    let keyed = kind.keys().is_empty() || kind.keys().contains(&operands[1].kind()?);
    keyed.then(|| store.headed(rule, operands))
}

/// Check 4.
fn read_knowledge(terms: &[Term], body: &[u8]) -> Checked<Vec<Term>> {
    let mut knowledge = Vec::new();
    let mut seen = HashSet::new();
    for (position, &number) in body.iter().enumerate() {
        match terms.get(usize::from(number)) {
            Some(term) if seen.insert(term) => knowledge.push(term.clone()),
            _ => return refuse(Reason::Knowledge, position),
        }
    }
    Ok(knowledge)
}
