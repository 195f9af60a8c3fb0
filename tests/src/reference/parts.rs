//! The parts of known messages: each message itself and anything that it is made from at any depth,
//! keys included.

use std::collections::HashSet;

use super::term::Term;
use crate::tables::{Kind, Rule};

/// The atoms that are part of known messages, by kind and name.
pub struct Atoms(HashSet<(Kind, u16)>);

/// A way in which a part is met: as a message itself, as the operand at this position of what the
/// rule built, or deep inside a message, below the operands of its operands.
#[derive(Clone, Copy, PartialEq, Eq, Debug)]
pub enum Met {
    Whole,
    Operand(Rule, usize),
    Deep,
}

impl Met {
    pub fn all() -> Vec<Met> {
        let builders = Rule::ALL.into_iter().filter(|rule| rule.builds());
        let operands =
            builders.flat_map(|rule| (0..rule.operands()).map(move |at| Met::Operand(rule, at)));
        [Met::Whole].into_iter().chain(operands).chain([Met::Deep]).collect()
    }
}

impl Atoms {
    pub fn part_of(messages: &[Term]) -> Atoms {
        Atoms::part_without(messages, None)
    }

    /// The same, as if nothing were met in this way.
    pub fn part_without(messages: &[Term], unmet: Option<Met>) -> Atoms {
        Atoms(parts_of(messages, unmet).iter().filter_map(Term::atom).collect())
    }

    pub fn has(&self, kind: Kind, name: u16) -> bool {
        self.0.contains(&(kind, name))
    }

    /// Whether the name is stale for a guess of this kind: its atom or that atom's inverse is part of
    /// a known message.
    pub fn make_stale(&self, kind: Kind, name: u16) -> bool {
        self.has(kind, name) || kind.inverse().is_some_and(|inverse| self.has(inverse, name))
    }
}

/// How far down a part is that is not deep: a message has level 0, its operands level 1.
const LAST_LEVEL: usize = 2;

/// Goes down level by level, and looks at each part once however often it is met.
fn parts_of(messages: &[Term], unmet: Option<Met>) -> HashSet<Term> {
    let mut parts = HashSet::new();
    let mut met: Vec<Term> = messages.to_vec();
    if unmet == Some(Met::Whole) {
        met.retain(|message| message.atom().is_none());
    }
    for level in 0.. {
        met.retain(|part| parts.insert(part.clone()));
        if met.is_empty() || unmet == Some(Met::Deep) && level == LAST_LEVEL {
            break;
        }
        met = met.iter().flat_map(|part| operands(part, unmet)).cloned().collect();
    }
    parts
}

fn operands(part: &Term, unmet: Option<Met>) -> impl Iterator<Item = &Term> {
    part.made_by().into_iter().flat_map(move |(rule, operands)| {
        let is_met = move |at| unmet != Some(Met::Operand(rule, at));
        operands.iter().enumerate().filter(move |(at, _)| is_met(*at)).map(|(_, part)| part)
    })
}
