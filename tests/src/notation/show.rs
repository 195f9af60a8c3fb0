//! From a submission to its text.

use std::collections::HashSet;

use super::{atom_text, ENTRY};
use crate::bodies::Bodies;
use crate::reference::Checked;
use crate::tables::{used, Body, Companion, Kind, Rule, Way, IN_KNOWLEDGE};

/// The canonical text of a submission that passes checks 1 and 2.
pub fn show(submission: &[u8]) -> Checked<String> {
    let bodies = Bodies::read(submission)?;
    let terms = Terms::of(&bodies.terms);
    let sections = [
        terms.lines,
        bodies.knowledge.iter().map(|&entry| reference(&terms.names, entry)).collect(),
        step_lines(&terms.names, &bodies.derivation),
        claim_lines(&terms.names, bodies.claim),
    ];
    let mut text = String::new();
    for (body, lines) in Body::ALL.into_iter().zip(sections) {
        text += &format!("{}\n{}", body.word(), indented(&lines));
    }
    Ok(text)
}

/// The lines that the canonical text of a submission which passes checks 1 and 2 would have for a
/// derivation of these steps.
pub fn show_deduction(submission: &[u8], steps: &[[u8; 4]]) -> Checked<String> {
    let names = Terms::of(&Bodies::read(submission)?.terms).names;
    Ok(indented(&step_lines(&names, steps)))
}

/// The number of the term that this text names as the canonical text of the submission does, or by `@`
/// and its number.
pub fn term_number(submission: &[u8], text: &str) -> Checked<Option<u8>> {
    let names = Terms::of(&Bodies::read(submission)?.terms).names;
    let by_name = names.iter().position(|name| name == text).map(|number| number as u8);
    Ok(by_name.or_else(|| text.strip_prefix('@')?.parse().ok()))
}

fn indented(lines: &[String]) -> String {
    lines.iter().map(|line| format!("  {line}\n")).collect()
}

fn step_lines(names: &[String], steps: &[[u8; 4]]) -> Vec<String> {
    let line = |(number, &step)| format!("{number}: {}", step_text(names, step));
    steps.iter().enumerate().map(line).collect()
}

/// The lines of the terms, and the name that other lines use for each.
struct Terms {
    lines: Vec<String>,
    names: Vec<String>,
}

impl Terms {
    fn of(records: &[[u8; 3]]) -> Terms {
        let mut terms = Terms { lines: Vec::new(), names: Vec::new() };
        let mut listed = HashSet::new();
        for (number, &record) in records.iter().enumerate() {
            let atom = atom(record).filter(|atom| listed.insert(atom.clone()));
            let name = atom.clone().unwrap_or_else(|| format!("t{number}"));
            terms
                .lines
                .push(atom.unwrap_or_else(|| format!("{name} = {}", terms.definition(record))));
            terms.names.push(name);
        }
        terms
    }

    /// What stands after the label of a term that is not listed as an atom.
    fn definition(&self, [kind, x, y]: [u8; 3]) -> String {
        match Kind::from_number(kind).and_then(Kind::rule) {
            Some(rule) => application(&self.names, rule, [x, y]),
            None => format!("record {kind} {x} {y}"),
        }
    }
}

fn atom([kind, x, y]: [u8; 3]) -> Option<String> {
    let kind = Kind::from_number(kind).filter(|kind| kind.is_atom())?;
    Some(atom_text(kind, u16::from_be_bytes([x, y])))
}

/// The term with this number, by name where it has one.
fn reference(names: &[String], number: u8) -> String {
    names.get(usize::from(number)).cloned().unwrap_or_else(|| format!("@{number}"))
}

/// The rule's word over its operands; over both where one that it does not use is not 0.
fn application(names: &[String], rule: Rule, operands: [u8; 2]) -> String {
    let shown = used(rule.operands(), &operands).unwrap_or(&operands);
    brackets(names, rule.word(), shown)
}

fn brackets(names: &[String], word: &str, operands: &[u8]) -> String {
    let operands: Vec<String> = operands.iter().map(|&number| reference(names, number)).collect();
    format!("{word}({})", operands.join(", "))
}

fn step_text(names: &[String], [rule, p, q, conclusion]: [u8; 4]) -> String {
    let concluded = reference(names, conclusion);
    let applied = match Rule::from_number(rule) {
        Some(rule) => application(names, rule, [p, q]),
        None => brackets(names, &format!("rule{rule}"), &[p, q]),
    };
    format!("{concluded} = {applied}")
}

fn claim_lines(names: &[String], [guess, step, way, companion]: [u8; 4]) -> Vec<String> {
    let known_way = Way::from_letter(way);
    let way_text = known_way.map_or(way.to_string(), |way| char::from(way.letter()).to_string());
    let may_be_entry = known_way.is_some_and(Way::may_be_entry);
    let step_text = match step {
        IN_KNOWLEDGE if may_be_entry => ENTRY.to_string(),
        _ => step.to_string(),
    };
    let companion_text = match known_way.map(Way::companion) {
        Some(Companion::Term) => Some(reference(names, companion)),
        Some(Companion::Step) => Some(companion.to_string()),
        Some(Companion::Zero) | None => (companion != 0).then(|| companion.to_string()),
    };
    let mut lines = vec![
        format!("guess {}", reference(names, guess)),
        format!("step {step_text}"),
        format!("way {way_text}"),
    ];
    lines.extend(companion_text.map(|text| format!("companion {text}")));
    lines
}
