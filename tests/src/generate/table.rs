//! A table of terms that grows without equal records.

use std::collections::HashMap;

use crate::tables::{padded, Claimed, Deducible, Kind, Rule, Way};

#[derive(Default)]
pub struct Table {
    pub records: Vec<[u8; 3]>,
    numbers: HashMap<[u8; 3], u8>,
}

impl Table {
    pub fn of(records: &[[u8; 3]]) -> Table {
        let mut table = Table::default();
        for &record in records {
            table.list(record);
        }
        table
    }

    /// The number of the record, which is listed if it was not.
    fn list(&mut self, record: [u8; 3]) -> u8 {
        *self.numbers.entry(record).or_insert_with(|| {
            self.records.push(record);
            (self.records.len() - 1) as u8
        })
    }

    pub fn atom(&mut self, kind: Kind, name: u16) -> u8 {
        let [high, low] = name.to_be_bytes();
        self.list([kind.number(), high, low])
    }

    pub fn compound(&mut self, kind: Kind, operands: &[u8]) -> u8 {
        let [x, y] = padded(operands);
        self.list([kind.number(), x, y])
    }

    /// The kind of the term with this number, and the two bytes after it.
    fn record(&self, number: u8) -> Option<(Kind, &[u8; 2])> {
        let [kind, bytes @ ..] = self.records.get(usize::from(number))?;
        Some((Kind::from_number(*kind)?, bytes))
    }

    pub fn kind(&self, number: u8) -> Option<Kind> {
        self.record(number).map(|(kind, _)| kind)
    }

    /// The kind and name of the atom with this number.
    pub fn as_atom(&self, number: u8) -> Option<(Kind, u16)> {
        let (kind, name) = self.record(number).filter(|(kind, _)| kind.is_atom())?;
        Some((kind, u16::from_be_bytes(*name)))
    }

    /// The rule that builds the compound with this number, and its operands.
    pub fn as_compound(&self, number: u8) -> Option<(Rule, &[u8])> {
        let (kind, bytes) = self.record(number)?;
        let rule = kind.rule()?;
        Some((rule, &bytes[..rule.operands()]))
    }

    /// The operands of the term with this number, none for an atom.
    fn operands(&self, number: u8) -> &[u8] {
        self.as_compound(number).map_or(&[], |(_, operands)| operands)
    }

    /// For each term, whether the part is it, or one that it is made from.
    pub fn having(&self, part: u8) -> Vec<bool> {
        let mut having: Vec<bool> = Vec::new();
        for number in self.numbers() {
            let has = |&operand: &u8| having[usize::from(operand)];
            having.push(number == part || self.operands(number).iter().any(has));
        }
        having
    }

    /// For each term, whether it is one of the messages, or one that they are made from. In a damaged
    /// table, operands may number later terms, or none.
    pub fn parts_of(&self, messages: &[u8]) -> Vec<bool> {
        let mut is_part = vec![false; self.records.len()];
        let mut waiting = messages.to_vec();
        while let Some(number) = waiting.pop() {
            if is_part.get(usize::from(number)) == Some(&false) {
                is_part[usize::from(number)] = true;
                waiting.extend_from_slice(self.operands(number));
            }
        }
        is_part
    }

    /// The listed number of a key's inverse.
    pub fn inverse(&self, number: u8) -> Option<u8> {
        let (kind, name) = self.as_atom(number)?;
        let [high, low] = name.to_be_bytes();
        self.numbers.get(&[kind.inverse()?.number(), high, low]).copied()
    }

    /// The listed number of the term that a claim in this way says is deducible.
    pub fn claimed(&self, guess: u8, way: Way) -> Option<u8> {
        match way.claimed() {
            Claimed::Verifier(_) => None,
            Claimed::Deducible(Deducible::Guess) => Some(guess),
            Claimed::Deducible(Deducible::Inverse) => self.inverse(guess),
        }
    }

    /// The listed terms of one of the kinds.
    pub fn of_kinds(&self, kinds: &[Kind]) -> Vec<u8> {
        let is_one = |&number: &u8| self.kind(number).is_some_and(|kind| kinds.contains(&kind));
        self.numbers().filter(is_one).collect()
    }

    pub fn numbers(&self) -> impl DoubleEndedIterator<Item = u8> {
        (0..self.records.len()).map(|number| number as u8)
    }
}
