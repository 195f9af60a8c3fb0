//! Steps that show that a term is deducible: found by going back from the term to the knowledge.

use std::collections::{HashMap, HashSet};

use super::deduction::can_be_built;
use super::derivation::Step;
use super::term::{Operands, Store, Term};
use crate::tables::Opener;

/// The terms that taking apart reaches, in the order in which they are reached: first the knowledge,
/// then each with the step that takes it out of a term before it, by a key that is before it or is
/// built from what is. A term that can be built from those before it is not among them, so it is no
/// premise on the way to itself.
pub struct Reached {
    places: HashMap<Term, usize>,
    taken: Vec<(Term, Option<Step>)>,
}

impl Reached {
    pub fn from(store: &mut Store, knowledge: &[Term]) -> Reached {
        let mut reached = Reached { places: HashMap::new(), taken: Vec::new() };
        for term in knowledge {
            if !reached.places.contains_key(term) {
                reached.add(term.clone(), None);
            }
        }
        let mut whole = Vec::new();
        let mut seen = 0;
        while seen < reached.taken.len() {
            whole.extend(seen..reached.taken.len());
            seen = reached.taken.len();
            whole.retain(|&place| !reached.take_apart(store, place));
        }
        reached
    }

    /// How many terms are reached that are not in the knowledge.
    pub fn taken(&self) -> usize {
        self.taken.iter().filter(|(_, step)| step.is_some()).count()
    }

    /// Whether the term is deducible.
    pub fn gives(&self, term: &Term) -> bool {
        can_be_built(term, |term| self.places.contains_key(term))
    }

    /// Steps from the knowledge to a term that is deducible.
    pub fn steps_to(&self, term: &Term) -> Vec<Step> {
        let mut derivation =
            Derivation { reached: self, concluded: HashSet::new(), steps: Vec::new() };
        derivation.go_to(term, self.taken.len());
        derivation.steps
    }

    fn add(&mut self, term: Term, step: Option<Step>) {
        self.places.insert(term.clone(), self.taken.len());
        self.taken.push((term, step));
    }

    /// Adds what can be taken out of the term at this place. Answers whether nothing is left in it that
    /// could be taken out later.
    fn take_apart(&mut self, store: &mut Store, place: usize) -> bool {
        let whole = self.taken[place].0.clone();
        let Some((built_by, operands)) = whole.made_by() else {
            return true;
        };
        let mut is_done = true;
        for (rule, taking) in built_by.takers() {
            let conclusion = operands[taking.part].clone();
            if self.gives(&conclusion) {
                continue;
            }
            let premises = match taking.opener {
                Opener::Nothing => Some(Operands::One([whole.clone()])),
                Opener::Key => Some(Operands::Two([whole.clone(), operands[1].clone()])),
                Opener::InverseKey => {
                    store.inverse(&operands[1]).map(|key| Operands::Two([whole.clone(), key]))
                }
            };
            let are_given = |premises: &Operands| premises[1..].iter().all(|key| self.gives(key));
            match premises.filter(are_given) {
                Some(premises) => {
                    self.add(conclusion.clone(), Some(Step { rule, premises, conclusion }));
                }
                None => is_done = false,
            }
        }
        is_done
    }
}

/// A list of steps that grows towards a term.
struct Derivation<'a> {
    reached: &'a Reached,
    concluded: HashSet<Term>,
    steps: Vec<Step>,
}

impl Derivation<'_> {
    /// Adds the steps that are missing to a term which the first so many of the terms reached give.
    /// A premise comes before the step that needs it, and only these are added.
    fn go_to(&mut self, term: &Term, first: usize) {
        if self.concluded.contains(term) {
            return;
        }
        let reached = self.reached;
        let place = reached.places.get(term).filter(|&&place| place < first);
        match place.map(|&place| (place, &reached.taken[place].1)) {
            Some((_, None)) => (),
            Some((place, Some(step))) => self.make(step.clone(), place),
            None => {
                let (rule, operands) = term.made_by().expect("the term can be built");
                let premises = Operands::of(operands);
                self.make(Step { rule, premises, conclusion: term.clone() }, first);
            }
        }
    }

    /// Adds the step, after those to its premises.
    fn make(&mut self, step: Step, first: usize) {
        for premise in step.premises.iter() {
            self.go_to(premise, first);
        }
        self.concluded.insert(step.conclusion.clone());
        self.steps.push(step);
    }
}
