//! Names to run a submission with.

use std::collections::HashSet;

use super::random::Random;
use super::table::Table;
use crate::bodies::{self, Bodies};
use crate::reference;

/// How many names of listed atoms that are part of no known message are tried, and how many that
/// most often are those of no listed atom.
const OTHERS: usize = 6;
const STRANGERS: usize = 3;

/// The names that a submission has.
#[derive(Default)]
pub struct Names {
    /// That of the guess, 0 where there is none.
    own: u16,
    /// Those of atoms, of any kind, that are part of a known message.
    parts: Vec<u16>,
    /// Those of the other listed atoms.
    others: Vec<u16>,
    /// What would be the names of the compounds that are part of a known message, if their records
    /// were those of atoms.
    operands: Vec<u16>,
}

impl Names {
    pub fn of(submission: &[u8]) -> Names {
        let own = reference::guess(submission).map_or(0, |(_, name)| name);
        let mut names = Names { own, ..Names::default() };
        if let Ok(bodies) = Bodies::read(submission) {
            names.add(&bodies);
        }
        names
    }

    fn add(&mut self, bodies: &Bodies) {
        let table = Table::of(&bodies.terms);
        let is_part = table.parts_of(&bodies.knowledge);
        for (number, &record) in table.numbers().zip(&table.records) {
            let names = match (table.as_atom(number), is_part[usize::from(number)]) {
                (Some(_), true) => &mut self.parts,
                (Some(_), false) => &mut self.others,
                (None, true) => &mut self.operands,
                (None, false) => continue,
            };
            names.push(bodies::name(record));
        }
    }

    /// The guess's own, and those of all atoms that are part of a known message: every stale one is
    /// among them.
    pub fn own_and_parts(&self) -> Vec<u16> {
        distinct([self.own].into_iter().chain(self.parts.iter().copied()))
    }

    /// These, some of other listed atoms, and some that most often are those of no listed atom.
    pub fn tried(&self, random: &mut Random) -> Vec<u16> {
        let mut others = self.others.clone();
        random.shuffle(&mut others);
        others.truncate(OTHERS);
        let strangers: Vec<u16> = (0..STRANGERS).map(|_| self.stranger(random)).collect();
        distinct([self.own_and_parts(), others, strangers].concat())
    }

    /// One name: the guess's own, that of a listed atom, or most often that of none.
    pub fn one(&self, random: &mut Random) -> u16 {
        match random.weighted(&[35, 30, 10, 25]) {
            0 => self.own,
            1 if !self.parts.is_empty() => random.pick(&self.parts),
            2 if !self.others.is_empty() => random.pick(&self.others),
            _ => self.stranger(random),
        }
    }

    /// A name that differs in one bit from one that the submission has, what a compound would have
    /// for a name, or any.
    fn stranger(&self, random: &mut Random) -> u16 {
        match random.below(5) {
            0 => self.own ^ 1 << random.below(16),
            1 if !self.parts.is_empty() => random.pick(&self.parts) ^ 1 << random.below(16),
            2 if !self.operands.is_empty() => random.pick(&self.operands),
            3 => random.pick(&[0, 1, u16::MAX]),
            _ => random.number() as u16,
        }
    }
}

/// The names in their order, each once.
fn distinct(names: impl IntoIterator<Item = u16>) -> Vec<u16> {
    let mut seen = HashSet::new();
    names.into_iter().filter(|&name| seen.insert(name)).collect()
}
