//! From a text to its submission.

use std::collections::HashMap;
use std::fmt;

use super::{atom_text, name, ENTRY, WORDLESS};
use crate::bodies::Bodies;
use crate::tables::{padded, Body, Companion, Kind, Rule, Way, IN_KNOWLEDGE};

/// What is wrong with a text, and in which line.
#[derive(PartialEq, Eq, Debug)]
pub struct Fault {
    pub line: usize,
    pub message: String,
}

impl fmt::Display for Fault {
    fn fmt(&self, f: &mut fmt::Formatter) -> fmt::Result {
        write!(f, "line {}: {}", self.line, self.message)
    }
}

pub type Parsed<T> = Result<T, String>;

/// The bytes of the submission that the text describes.
pub fn assemble(text: &str) -> Result<Vec<u8>, Fault> {
    let [terms, knowledge, derivation, claim] = sections(text)?;
    let mut table = Table::default();
    let bodies = Bodies {
        terms: each(&terms, |_, line| table.term(line))?,
        knowledge: each(&knowledge, |_, line| table.number(line))?,
        derivation: each(&derivation, |number, line| table.step(number, line))?,
        claim: read_claim(&table, &claim)?,
    };
    Ok(bodies.submission())
}

/// The lines of a text with their numbers, without blank ones and comments.
pub fn lines(text: &str) -> impl Iterator<Item = (usize, &str)> {
    text.lines()
        .enumerate()
        .map(|(index, line)| (index + 1, line.trim()))
        .filter(|(_, line)| !line.is_empty() && !line.starts_with('#'))
}

/// A section: its heading's line number, and its lines with theirs.
struct Section<'a> {
    heading: usize,
    lines: Vec<(usize, &'a str)>,
}

/// The lines under each heading.
fn sections(text: &str) -> Result<[Section<'_>; Body::ALL.len()], Fault> {
    let headings = Body::ALL.map(Body::word);
    let mut found: Vec<Section> = Vec::new();
    for (number, line) in lines(text) {
        if headings.get(found.len()) == Some(&line) {
            found.push(Section { heading: number, lines: Vec::new() });
        } else if let Some(section) = found.last_mut().filter(|_| !headings.contains(&line)) {
            section.lines.push((number, line));
        } else {
            return Err(misplaced(number, found.len()));
        }
    }
    let count = found.len();
    found.try_into().map_err(|_| misplaced(text.lines().count(), count))
}

fn misplaced(line: usize, sections: usize) -> Fault {
    let message = match Body::ALL.get(sections) {
        Some(body) => format!("the section `{}` is expected", body.word()),
        None => "no further section is expected".to_string(),
    };
    Fault { line, message }
}

/// What each line of a section gives, which has at most 255.
fn each<'a, T>(
    section: &Section<'a>,
    mut read: impl FnMut(usize, &'a str) -> Parsed<T>,
) -> Result<Vec<T>, Fault> {
    let read_line = |(position, &(line, text)): (usize, &(usize, &'a str))| {
        if position == usize::from(u8::MAX) {
            return Err(Fault { line, message: "a section has at most 255 lines".to_string() });
        }
        read(position, text).map_err(|message| Fault { line, message })
    };
    section.lines.iter().enumerate().map(read_line).collect()
}

/// The numbers of the terms listed so far, by the name that other lines use.
#[derive(Default)]
struct Table {
    numbers: HashMap<String, u8>,
}

impl Table {
    /// The record of a line of the terms, which is listed from then on.
    fn term(&mut self, line: &str) -> Parsed<[u8; 3]> {
        let (name, record) = match line.split_once('=') {
            Some((before, definition)) => {
                (label(before.trim())?, self.definition(definition.trim())?)
            }
            None => {
                let (kind, name) = atom(line)?;
                let [high, low] = name.to_be_bytes();
                (atom_text(kind, name), [kind.number(), high, low])
            }
        };
        let number = self.numbers.len() as u8;
        match self.numbers.insert(name.clone(), number) {
            Some(_) => Err(format!("`{name}` is listed already")),
            None => Ok(record),
        }
    }

    fn definition(&self, text: &str) -> Parsed<[u8; 3]> {
        if let Some(numbers) = text.strip_prefix("record ") {
            let bytes: Vec<u8> =
                numbers.split_whitespace().map(parse_byte).collect::<Parsed<_>>()?;
            return bytes.try_into().map_err(|_| "a record has three bytes".to_string());
        }
        let (word, operands) = application(text)?;
        let compounds = Kind::compounds();
        let (kind, rule) = compounds
            .iter()
            .find(|(kind, _)| kind.word() == word)
            .ok_or_else(|| unknown(word, compounds.iter().map(|(kind, _)| kind.word())))?;
        let [x, y] = self.operands(Some(*rule), &operands)?;
        Ok([kind.number(), x, y])
    }

    /// The number of the term that the text names.
    fn number(&self, text: &str) -> Parsed<u8> {
        if let Some(number) = text.strip_prefix('@') {
            return parse_byte(number);
        }
        if let Some(&number) = self.numbers.get(text) {
            return Ok(number);
        }
        let listed =
            atom(text).ok().and_then(|(kind, name)| self.numbers.get(&atom_text(kind, name)));
        listed.copied().ok_or_else(|| format!("no term `{text}` is listed"))
    }

    /// The numbers of two operands, or of as many as the rule uses.
    fn operands(&self, rule: Option<Rule>, texts: &[&str]) -> Parsed<[u8; 2]> {
        let uses = rule.map_or(2, Rule::operands);
        if texts.len() != 2 && texts.len() != uses {
            let terms = if uses == 1 { "one term is" } else { "two terms are" };
            return Err(format!("{terms} expected between the brackets"));
        }
        let numbers: Vec<u8> = texts.iter().map(|text| self.number(text)).collect::<Parsed<_>>()?;
        Ok(padded(&numbers))
    }

    /// The record of a step.
    fn step(&self, position: usize, line: &str) -> Parsed<[u8; 4]> {
        let (number, rest) =
            line.split_once(':').ok_or("a step is `NUMBER: CONCLUSION = RULE(PREMISES)`")?;
        if number.trim() != position.to_string() {
            return Err(format!("step {position} is expected"));
        }
        let (conclusion, applied) =
            rest.split_once('=').ok_or("a step has `=` after its conclusion")?;
        let conclusion = self.number(conclusion.trim())?;
        let (word, operands) = application(applied.trim())?;
        let rule = rule_number(word)?;
        let [p, q] = self.operands(Rule::from_number(rule), &operands)?;
        Ok([rule, p, q, conclusion])
    }

    /// One byte of the claim, by the line at its position; `way` is what an earlier line gave.
    fn claim_byte(&self, position: usize, line: &str, way: u8) -> Parsed<u8> {
        let keyword = CLAIM.get(position).ok_or("the claim has no further line")?;
        let (word, value) = line.split_once(' ').unwrap_or((line, ""));
        if word != *keyword {
            return Err(format!("`{keyword}` is expected"));
        }
        let value = value.trim();
        match *keyword {
            "way" => parse_way(value),
            "guess" => self.number(value),
            "step" => parse_step(value),
            "companion" if companion(way) == Some(Companion::Term) => self.number(value),
            _ => parse_byte(value),
        }
    }
}

/// The lines of the claim. The companion may be left out where it is not a step or a term.
const CLAIM: [&str; 4] = ["guess", "step", "way", "companion"];

fn read_claim(table: &Table, section: &Section) -> Result<[u8; 4], Fault> {
    let mut claim = [0; 4];
    each(section, |position, line| {
        let byte = table.claim_byte(position, line, claim[2])?;
        claim[position] = byte;
        Ok(())
    })?;
    let given = section.lines.len();
    let needed = match companion(claim[2]) {
        Some(Companion::Step | Companion::Term) => 4,
        Some(Companion::Zero) | None => 3,
    };
    if given < needed {
        let line = section.lines.last().map_or(section.heading, |(line, _)| *line);
        return Err(Fault { line, message: format!("`{}` is missing", CLAIM[given]) });
    }
    Ok(claim)
}

/// What the companion is in the way with this letter, if there is one.
fn companion(way: u8) -> Option<Companion> {
    Way::from_letter(way).map(Way::companion)
}

/// The word before the brackets, and the texts between them.
fn application(text: &str) -> Parsed<(&str, Vec<&str>)> {
    let (word, rest) = text.split_once('(').ok_or("`(` is expected")?;
    let operands = rest.strip_suffix(')').ok_or("`)` is expected at the end")?;
    Ok((word.trim(), operands.split(',').map(str::trim).collect()))
}

/// The kind and the name of an atom.
fn atom(text: &str) -> Parsed<(Kind, u16)> {
    let (word, name_text) = text.split_once(' ').unwrap_or((WORDLESS.word(), text));
    let atoms = Kind::atoms();
    let kind = atoms
        .iter()
        .find(|kind| kind.word() == word)
        .ok_or_else(|| unknown(word, atoms.iter().map(|kind| kind.word())))?;
    let name = name::parse(name_text.trim()).ok_or_else(|| {
        format!(
            "`{name_text}` is no name: a number below 65536, or one to three letters and digits"
        )
    })?;
    Ok((*kind, name))
}

/// Says that a word is none of the expected ones.
fn unknown<'a>(word: &str, expected: impl Iterator<Item = &'a str>) -> String {
    format!("`{word}` is none of {}", expected.collect::<Vec<_>>().join(", "))
}

/// A label: letters, digits and `_`, a letter first.
fn label(text: &str) -> Parsed<String> {
    let fits = text.chars().all(|c| c.is_ascii_alphanumeric() || c == '_');
    if !fits || !text.starts_with(|c: char| c.is_ascii_alphabetic()) {
        return Err(format!("`{text}` is no label: letters, digits and `_`, a letter first"));
    }
    Ok(text.to_string())
}

pub fn rule_number(word: &str) -> Parsed<u8> {
    match (Rule::from_word(word), word.strip_prefix("rule")) {
        (Some(rule), _) => Ok(rule.number()),
        (None, Some(number)) => parse_byte(number),
        (None, None) => Err(format!("`{word}` is no rule")),
    }
}

fn parse_way(text: &str) -> Parsed<u8> {
    match text.as_bytes() {
        &[letter] if Way::from_letter(letter).is_some() => Ok(letter),
        _ => parse_byte(text),
    }
}

fn parse_step(text: &str) -> Parsed<u8> {
    if text == ENTRY {
        return Ok(IN_KNOWLEDGE);
    }
    parse_byte(text).map_err(|fault| format!("{fault}, nor `{ENTRY}`"))
}

pub fn parse_byte(text: &str) -> Parsed<u8> {
    text.parse().map_err(|_| format!("`{text}` is no number below 256"))
}
