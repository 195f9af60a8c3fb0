//! Terms as trees with shared parts.
//!
//! A [`Store`] keeps one copy of each term that it is asked for. Two terms of one store are equal
//! exactly when they are the same copy, so a term that doubles at each step stays small.

use std::collections::HashSet;
use std::hash::{Hash, Hasher};
use std::ops::Deref;
use std::rc::Rc;

use crate::tables::{Kind, Rule};

/// What a term is made of: an atom's kind and name, or the word of a rule over its operands.
#[derive(PartialEq, Eq)]
enum Shape {
    Atom(Kind, u16),
    Headed(Rule, Operands),
}

impl Hash for Shape {
    fn hash<H: Hasher>(&self, state: &mut H) {
        match self {
            Shape::Atom(kind, name) => (kind, name).hash(state),
            Shape::Headed(rule, operands) => {
                rule.hash(state);
                operands.iter().for_each(|operand| operand.hash(state));
            }
        }
    }
}

/// The operands of a rule.
#[derive(Clone, PartialEq, Eq)]
pub enum Operands {
    One([Term; 1]),
    Two([Term; 2]),
}

impl Operands {
    /// The terms with these numbers, of which there are one or two.
    pub fn numbered(terms: &[Term], numbers: &[u8]) -> Option<Operands> {
        let term = |number: u8| terms.get(usize::from(number)).cloned();
        match *numbers {
            [x] => Some(Operands::One([term(x)?])),
            [x, y] => Some(Operands::Two([term(x)?, term(y)?])),
            _ => panic!("a rule has one or two operands"),
        }
    }

    /// These terms, of which there are one or two.
    pub fn of(terms: &[Term]) -> Operands {
        match terms {
            [x] => Operands::One([x.clone()]),
            [x, y] => Operands::Two([x.clone(), y.clone()]),
            _ => panic!("a rule has one or two operands"),
        }
    }
}

impl Deref for Operands {
    type Target = [Term];

    fn deref(&self) -> &[Term] {
        match self {
            Operands::One(operands) => operands,
            Operands::Two(operands) => operands,
        }
    }
}

#[derive(Clone)]
pub struct Term(Rc<Shape>);

impl PartialEq for Term {
    fn eq(&self, other: &Term) -> bool {
        Rc::ptr_eq(&self.0, &other.0)
    }
}

impl Eq for Term {}

impl Hash for Term {
    fn hash<H: Hasher>(&self, state: &mut H) {
        Rc::as_ptr(&self.0).hash(state);
    }
}

impl Term {
    /// The kind and name of an atom.
    pub fn atom(&self) -> Option<(Kind, u16)> {
        match *self.0 {
            Shape::Atom(kind, name) => Some((kind, name)),
            Shape::Headed(..) => None,
        }
    }

    /// The rule that made the term, and from what.
    pub fn made_by(&self) -> Option<(Rule, &[Term])> {
        match &*self.0 {
            Shape::Atom(..) => None,
            Shape::Headed(rule, operands) => Some((*rule, operands)),
        }
    }

    /// The operands from which this rule made the term.
    pub fn operands_of(&self, rule: Rule) -> Option<&[Term]> {
        self.made_by().filter(|(by, _)| *by == rule).map(|(_, operands)| operands)
    }

    /// The operands that the term is made from, keys included.
    pub fn parts(&self) -> &[Term] {
        self.made_by().map_or(&[], |(_, operands)| operands)
    }

    /// The kind that the term has in a record.
    pub fn kind(&self) -> Option<Kind> {
        match *self.0 {
            Shape::Atom(kind, _) => Some(kind),
            Shape::Headed(rule, _) => Kind::built_by(rule),
        }
    }

    /// The kind and name of the inverse of a key.
    fn inverse_atom(&self) -> Option<(Kind, u16)> {
        let (kind, name) = self.atom()?;
        Some((kind.inverse()?, name))
    }

    /// Whether the two terms are keys and each other's inverse.
    pub fn is_inverse_of(&self, other: &Term) -> bool {
        self.inverse_atom().is_some_and(|inverse| other.atom() == Some(inverse))
    }
}

/// The one copy of each term.
#[derive(Default)]
pub struct Store {
    copies: HashSet<Rc<Shape>>,
}

impl Store {
    pub fn atom(&mut self, kind: Kind, name: u16) -> Term {
        self.term(Shape::Atom(kind, name))
    }

    pub fn inverse(&mut self, key: &Term) -> Option<Term> {
        let (kind, name) = key.inverse_atom()?;
        Some(self.atom(kind, name))
    }

    /// The rule's word over its operands.
    pub fn headed(&mut self, rule: Rule, operands: Operands) -> Term {
        self.term(Shape::Headed(rule, operands))
    }

    fn term(&mut self, shape: Shape) -> Term {
        if let Some(copy) = self.copies.get(&shape) {
            return Term(Rc::clone(copy));
        }
        let copy = Rc::new(shape);
        self.copies.insert(Rc::clone(&copy));
        Term(copy)
    }
}
