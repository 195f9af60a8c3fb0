//! Counts of what the inputs reached of the tables of kinds and rules.

use checker_tests::bodies::Bodies;
use checker_tests::reference::{records, Refusal};
use checker_tests::tables::{Kind, Reason, Rule, INSTRUCTION_SIZE};

use crate::tally::cells;

type ByKind = [u64; Kind::ALL.len()];
type ByRule<T> = [T; Rule::ALL.len()];

#[derive(Default)]
pub struct Rows {
    /// The terms and the steps of accepted submissions.
    terms: ByKind,
    steps: ByRule<u64>,
    /// The keys of what these steps build or take apart.
    keys: ByRule<ByKind>,
    /// The terms and the steps for which a submission is refused.
    bad_terms: ByKind,
    bad_steps: ByRule<u64>,
    /// The kinds of key on which it depends that a term is deducible.
    needed_keys: ByKind,
    /// The instructions of programs that run takes.
    instructions: ByRule<u64>,
}

impl Rows {
    pub fn count_accepted(&mut self, bodies: &Bodies) {
        for &[kind, ..] in &bodies.terms {
            let kind = Kind::from_number(kind).expect("check 3 leaves kinds");
            self.terms[kind as usize] += 1;
        }
        for &step in &bodies.derivation {
            let rule = Rule::from_number(step[0]).expect("check 6 leaves rules");
            self.steps[rule as usize] += 1;
            if let Some(key) = key(&bodies.terms, rule, step) {
                self.keys[rule as usize][key as usize] += 1;
            }
        }
    }

    pub fn count_refused(&mut self, bodies: &Bodies, Refusal { reason, place }: Refusal) {
        if reason == Reason::Term {
            if let Some(kind) = Kind::from_number(bodies.terms[place][0]) {
                self.bad_terms[kind as usize] += 1;
            }
        }
        if reason == Reason::Step {
            if let Some(rule) = Rule::from_number(bodies.derivation[place][0]) {
                self.bad_steps[rule as usize] += 1;
            }
        }
    }

    pub fn count_needed(&mut self, keys: &[Kind]) {
        for &kind in keys {
            self.needed_keys[kind as usize] += 1;
        }
    }

    /// Counts the instructions of a program that run takes.
    pub fn count_run(&mut self, program: &[u8]) {
        let instructions = records::<INSTRUCTION_SIZE>(&program[1..]).take(program[0].into());
        for [rule, ..] in instructions {
            let rule = Rule::from_number(rule).expect("check 13 leaves rules");
            self.instructions[rule as usize] += 1;
        }
    }

    pub fn print(&self) {
        println!("{}", cells("kind", Kind::ALL, Kind::word));
        for (title, _, counts) in self.by_kind() {
            println!("{}", cells(&title, Kind::ALL, |kind| counts[kind as usize]));
        }
        println!("\n{}", cells("rule", Rule::ALL, Rule::word));
        for (title, counts) in self.by_rule() {
            println!("{}", cells(title, Rule::ALL, |rule| counts[rule as usize]));
        }
    }

    /// What should have been reached and was not.
    pub fn missing(&self) -> Vec<String> {
        let mut missing = Vec::new();
        for (title, kinds, counts) in self.by_kind() {
            let never = kinds.into_iter().filter(|&kind| counts[kind as usize] == 0);
            missing.extend(never.map(|kind| format!("{title}: {}", kind.word())));
        }
        for (title, counts) in self.by_rule() {
            let never = Rule::ALL.into_iter().filter(|&rule| counts[rule as usize] == 0);
            missing.extend(never.map(|rule| format!("{title}: {}", rule.word())));
        }
        missing
    }

    /// The counts by kind, each with a title and the kinds that have to be reached.
    fn by_kind(&self) -> Vec<(String, Vec<Kind>, &ByKind)> {
        let mut counts = vec![
            ("term, accepted".to_string(), Kind::ALL.to_vec(), &self.terms),
            ("term, refused".to_string(), Kind::ALL.to_vec(), &self.bad_terms),
        ];
        for rule in Rule::ALL {
            let keys = Kind::handled_by(rule).map_or(&[][..], Kind::keys);
            if !keys.is_empty() {
                let title = format!("key of {}", rule.word());
                counts.push((title, keys.to_vec(), &self.keys[rule as usize]));
            }
        }
        counts.push(("key, deducible".to_string(), Kind::locking(), &self.needed_keys));
        counts
    }

    /// The counts by rule, each with a title.
    fn by_rule(&self) -> [(&'static str, &ByRule<u64>); 3] {
        [
            ("step, accepted", &self.steps),
            ("step, refused", &self.bad_steps),
            ("instruction, run", &self.instructions),
        ]
    }
}

/// The kind of the key of what the step builds or takes apart, if it has one.
fn key(terms: &[[u8; 3]], rule: Rule, [_, p, _, conclusion]: [u8; 4]) -> Option<Kind> {
    Kind::handled_by(rule).filter(|kind| !kind.keys().is_empty())?;
    let compound = if rule.builds() { conclusion } else { p };
    let [.., key] = terms[usize::from(compound)];
    Kind::from_number(terms[usize::from(key)][0])
}
