//! What is deducible from the knowledge, without the guess.

use std::collections::{HashMap, HashSet};

use super::term::{Store, Term};
use crate::tables::{Kind, Opener};

/// The terms that taking apart reaches from the knowledge. Anything else that is deducible is
/// built from these.
pub struct Deduction {
    known: HashSet<Term>,
    /// What is under a key of these kinds stays shut.
    shut: Vec<Kind>,
}

impl Deduction {
    /// Takes apart what is known until nothing more opens.
    pub fn from_knowledge(store: &mut Store, knowledge: &[Term]) -> Deduction {
        Deduction::without_keys(store, knowledge, &[])
    }

    /// The same, as if no key of these kinds opened anything.
    pub fn without_keys(store: &mut Store, knowledge: &[Term], shut: &[Kind]) -> Deduction {
        let known = knowledge.iter().cloned().collect();
        let mut deduction = Deduction { known, shut: shut.to_vec() };
        let mut whole = knowledge.to_vec();
        loop {
            let mut parts = Vec::new();
            whole.retain(|term| {
                let opened = deduction.opened(store, term);
                parts.extend_from_slice(&opened);
                opened.is_empty()
            });
            if parts.is_empty() {
                return deduction;
            }
            parts.retain(|part| deduction.known.insert(part.clone()));
            whole.append(&mut parts);
        }
    }

    /// Whether the term is deducible.
    pub fn reaches(&self, term: &Term) -> bool {
        can_be_built(term, |term| self.known.contains(term))
    }

    /// What can be taken out of a known term.
    fn opened(&self, store: &mut Store, term: &Term) -> Vec<Term> {
        let Some((rule, operands)) = term.made_by() else {
            return vec![];
        };
        rule.takers()
            .filter(|(_, taking)| self.opens(store, taking.opener, operands))
            .map(|(_, taking)| operands[taking.part].clone())
            .collect()
    }

    /// Whether what opens a term with these operands is deducible. A key need not be known: it may
    /// be built.
    fn opens(&self, store: &mut Store, opener: Opener, operands: &[Term]) -> bool {
        let opening = match opener {
            Opener::Nothing => return true,
            Opener::Key => Some(operands[1].clone()),
            Opener::InverseKey => store.inverse(&operands[1]),
        };
        let is_shut = operands[1].kind().is_some_and(|kind| self.shut.contains(&kind));
        !is_shut && opening.is_some_and(|key| self.reaches(&key))
    }
}

/// Whether the term can be built: it is known, or its parts can be built. An atom has no parts.
pub fn can_be_built(term: &Term, is_known: impl Fn(&Term) -> bool) -> bool {
    builds(term, &is_known, &mut HashMap::new())
}

/// The same, with the answers found so far.
fn builds(term: &Term, is_known: &impl Fn(&Term) -> bool, found: &mut HashMap<Term, bool>) -> bool {
    if is_known(term) {
        return true;
    }
    if let Some(&answer) = found.get(term) {
        return answer;
    }
    let parts = term.parts();
    let answer = !parts.is_empty() && parts.iter().all(|part| builds(part, is_known, found));
    found.insert(term.clone(), answer);
    answer
}
