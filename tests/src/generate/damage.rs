//! Submissions with something changed: a record, an entry, a step, the claim, or plain bytes.

use super::random::Random;
use super::steps::{around, builds};
use super::table::Table;
use crate::bodies::Bodies;
use crate::tables::{unclaimed, Kind, Rule, Way, CONTENTS_SIZE, IN_KNOWLEDGE};

/// The bodies with one change to their records.
pub fn changed_records(random: &mut Random, bodies: &Bodies) -> Bodies {
    let mut changed = bodies.clone();
    let change = [
        change_term,
        repeat_term,
        change_operand,
        fill_term,
        change_knowledge,
        change_step,
        fill_step,
        move_step,
        repeat_step,
        undo_step,
        change_claim,
    ][random.weighted(&[12, 6, 12, 4, 18, 16, 6, 10, 6, 18, 14])];
    change(random, &mut changed);
    changed
}

/// The bytes with one change anywhere: a byte, the length, or the contents.
pub fn changed_bytes(random: &mut Random, submission: &[u8]) -> Vec<u8> {
    let mut changed = submission.to_vec();
    match random.weighted(&[40, 25, 15, 20]) {
        0 => change_byte(random, &mut changed),
        1 => changed.truncate(random.below(submission.len())),
        2 => {
            let count = random.between(1, 5);
            changed.extend(random.bytes(count));
        }
        _ => {
            let at = random.below(CONTENTS_SIZE);
            changed[at] = changed[at].wrapping_add(random.pick(&[1, 255, 32, 4, 252]));
        }
    }
    changed
}

/// Sets one byte to a number that is about as small as those of kinds and rules, one that is close
/// by, or any.
pub fn change_byte(random: &mut Random, bytes: &mut [u8]) {
    let at = random.below(bytes.len());
    bytes[at] = match random.below(4) {
        0 => random.below(Kind::ALL.len() + 2) as u8,
        1 => bytes[at].wrapping_add(1),
        2 => bytes[at].wrapping_sub(1),
        _ => random.byte(),
    };
}

fn change_term(random: &mut Random, bodies: &mut Bodies) {
    let at = random.below(bodies.terms.len());
    change_record(random, &mut bodies.terms[at], &unclaimed::KINDS);
}

/// Changes a byte of a record, or puts one of the numbers first, which make it bad.
fn change_record(random: &mut Random, record: &mut [u8], bad: &[u8]) {
    if random.chance(20) {
        record[0] = random.pick(bad);
    } else {
        change_byte(random, record);
    }
}

fn repeat_term(random: &mut Random, bodies: &mut Bodies) {
    let record = random.pick(&bodies.terms);
    bodies.terms.push(record);
}

/// Lets a compound be made from another term than before, listed before it or after, or from itself.
/// A key may become one that does not fit.
fn change_operand(random: &mut Random, bodies: &mut Bodies) {
    let compounds: Vec<(usize, Rule)> = (0..bodies.terms.len())
        .filter_map(|number| Some((number, builder(bodies.terms[number][0])?)))
        .collect();
    if compounds.is_empty() {
        return;
    }
    let (compound, rule) = random.pick(&compounds);
    let other = if random.chance(25) { compound } else { random.below(bodies.terms.len()) };
    bodies.terms[compound][1 + random.below(rule.operands())] = other as u8;
}

/// The rule that builds the compounds of the kind with this number.
fn builder(kind: u8) -> Option<Rule> {
    Kind::from_number(kind).and_then(Kind::rule)
}

fn fill_term(random: &mut Random, bodies: &mut Bodies) {
    fill_unused(random, &mut bodies.terms, builder);
}

fn fill_step(random: &mut Random, bodies: &mut Bodies) {
    fill_unused(random, &mut bodies.derivation, Rule::from_number);
}

/// Puts a number in the place of a 0 that is no operand, if one of the records has such. The first
/// byte gives the rule, and the next two have its operands.
pub fn fill_unused<const N: usize>(
    random: &mut Random,
    records: &mut [[u8; N]],
    rule: impl Fn(u8) -> Option<Rule>,
) {
    let mut unused: Vec<&mut u8> = records
        .iter_mut()
        .filter(|record| rule(record[0]).is_some_and(|rule| rule.operands() == 1))
        .map(|record| &mut record[2])
        .collect();
    if !unused.is_empty() {
        let at = random.below(unused.len());
        *unused[at] = random.between(1, 3) as u8;
    }
}

fn change_knowledge(random: &mut Random, bodies: &mut Bodies) {
    let count = bodies.knowledge.len();
    match random.below(if count == 0 { 2 } else { 5 }) {
        0 => bodies.knowledge.push(random.below(bodies.terms.len()) as u8),
        1 => bodies.knowledge.insert(random.below(count + 1), bodies.claim[0]),
        2 => drop(bodies.knowledge.remove(random.below(count))),
        3 => {
            let entry = random.pick(&bodies.knowledge);
            bodies.knowledge.push(entry);
        }
        _ => bodies.knowledge[random.below(count)] = bodies.terms.len() as u8,
    }
}

fn change_step(random: &mut Random, bodies: &mut Bodies) {
    if !bodies.derivation.is_empty() {
        let at = random.below(bodies.derivation.len());
        change_record(random, &mut bodies.derivation[at], &unclaimed::RULES);
    }
}

/// Moves a step, or leaves it out.
fn move_step(random: &mut Random, bodies: &mut Bodies) {
    if bodies.derivation.is_empty() {
        return;
    }
    let step = bodies.derivation.remove(random.below(bodies.derivation.len()));
    if random.chance(60) {
        insert_step(random, bodies, step);
    }
}

fn repeat_step(random: &mut Random, bodies: &mut Bodies) {
    if !bodies.derivation.is_empty() {
        let step = random.pick(&bodies.derivation);
        insert_step(random, bodies, step);
    }
}

fn insert_step(random: &mut Random, bodies: &mut Bodies, step: [u8; 4]) {
    bodies.derivation.insert(random.below(bodies.derivation.len() + 1), step);
}

/// Adds a step that one of the derivation undoes, or that undoes it: before, after or at the end.
fn undo_step(random: &mut Random, bodies: &mut Bodies) {
    if bodies.derivation.is_empty() {
        return;
    }
    let step = random.pick(&bodies.derivation);
    let compound = if builds(step) { step[3] } else { step[1] };
    let opposite: Vec<[u8; 4]> = around(&Table::of(&bodies.terms), compound)
        .into_iter()
        .filter(|&other| builds(other) != builds(step))
        .collect();
    if opposite.is_empty() {
        return;
    }
    let added = random.pick(&opposite);
    if random.chance(60) {
        bodies.derivation.push(added);
    } else {
        insert_step(random, bodies, added);
    }
}

fn change_claim(random: &mut Random, bodies: &mut Bodies) {
    let (terms, steps) = (bodies.terms.len(), bodies.derivation.len());
    let count = terms.max(steps);
    let guess = bodies.claim[0];
    match random.below(7) {
        0 => bodies.claim[0] = random.below(count + 1) as u8,
        1 => bodies.claim[1] = [random.below(steps + 1), steps][random.below(2)] as u8,
        2 => bodies.claim[1] = random.pick(&[IN_KNOWLEDGE, IN_KNOWLEDGE, IN_KNOWLEDGE - 1]),
        3 => bodies.claim[2] = other_way(random),
        4 => bodies.claim[3] = [random.below(count + 1), terms, steps][random.below(3)] as u8,
        5 => bodies.claim[0] = Table::of(&bodies.terms).inverse(guess).unwrap_or(guess),
        _ => change_byte(random, &mut bodies.claim),
    }
}

/// The letter of a way, or one that is none.
fn other_way(random: &mut Random) -> u8 {
    if random.chance(60) {
        random.pick(&Way::ALL).letter()
    } else {
        random.pick(&unclaimed::WAYS)
    }
}
