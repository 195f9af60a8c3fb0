//! The steps that can be made over a table from a set of known terms.

use super::table::Table;
use crate::tables::{padded, Opener, Rule};

/// A set of terms, by number.
pub struct TermSet(Vec<bool>);

impl TermSet {
    pub fn new(table: &Table, numbers: impl IntoIterator<Item = u8>) -> TermSet {
        let mut set = TermSet(vec![false; table.records.len()]);
        for number in numbers {
            set.add(number);
        }
        set
    }

    pub fn add(&mut self, number: u8) {
        self.0[usize::from(number)] = true;
    }

    pub fn has(&self, number: u8) -> bool {
        self.0[usize::from(number)]
    }
}

/// All steps whose premises are known and whose conclusion is listed.
pub fn possible(table: &Table, known: &TermSet) -> Vec<[u8; 4]> {
    table
        .numbers()
        .flat_map(|number| around(table, number))
        .filter(|step| premises(step).iter().all(|&premise| known.has(premise)))
        .collect()
}

/// The step that builds the compound with this number.
pub fn building(table: &Table, number: u8) -> [u8; 4] {
    around(table, number)[0]
}

/// The step that builds the compound with this number, and those that take it apart, if it is one
/// and the inverse key is listed.
pub fn around(table: &Table, number: u8) -> Vec<[u8; 4]> {
    let Some((rule, operands)) = table.as_compound(number) else {
        return vec![];
    };
    let mut steps = vec![step(rule, operands, number)];
    for (taker, taking) in rule.takers() {
        let premises = match taking.opener {
            Opener::Nothing => Some(vec![number]),
            Opener::Key => Some(vec![number, operands[1]]),
            Opener::InverseKey => table.inverse(operands[1]).map(|key| vec![number, key]),
        };
        steps.extend(premises.map(|premises| step(taker, &premises, operands[taking.part])));
    }
    steps
}

pub fn step(rule: Rule, premises: &[u8], conclusion: u8) -> [u8; 4] {
    let [p, q] = padded(premises);
    [rule.number(), p, q, conclusion]
}

/// The premises of a step with a rule.
pub fn premises([rule, premises @ .., _]: &[u8; 4]) -> &[u8] {
    let rule = Rule::from_number(*rule).expect("a step with a rule");
    &premises[..rule.operands()]
}

/// Whether the step builds a compound.
pub fn builds([rule, ..]: [u8; 4]) -> bool {
    Rule::from_number(rule).is_some_and(Rule::builds)
}
