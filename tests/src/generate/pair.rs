//! Pairs of submissions to join, each with a page for the pool.

use super::damage;
use super::limits::padded;
use super::random::Random;
use super::relative::relative;
use super::table::Table;
use crate::bodies::{self, Bodies};
use crate::reference::{self, Joint};
use crate::tables::{Body, Kind, LONGEST_SUBMISSION};

pub struct Pair {
    pub first: Vec<u8>,
    pub second: Vec<u8>,
    /// The page before the call.
    pub page: Vec<u8>,
    /// Whether the pool is looked through, and each term of the two and of the pool asked for.
    pub is_asked: bool,
}

impl Pair {
    /// These two, and a page on which every pool has room.
    pub fn with_room(first: &[u8], second: &[u8]) -> Pair {
        let page = vec![0xA5; LONGEST_SUBMISSION];
        Pair { first: first.to_vec(), second: second.to_vec(), page, is_asked: true }
    }

    /// These two, and a page of any length.
    fn new(random: &mut Random, first: Vec<u8>, second: Vec<u8>) -> Pair {
        let length = page_length(random, &first, &second);
        let is_asked = first.len() + second.len() <= SMALL || random.chance(SAMPLE);
        Pair { page: random.page(length), first, second, is_asked }
    }
}

/// The pairs up to this many bytes of which it is asked, and of how many in 100 longer ones.
const SMALL: usize = 100;
const SAMPLE: usize = 3;

/// One pair of the submission and another, either of them first; and one of a kept protocol and another.
pub fn pairs(random: &mut Random, submission: &[u8], kept: &[Bodies]) -> Vec<Pair> {
    let other = &kept[random.below(kept.len())];
    let beside = beside(random, submission, other);
    let [first, second] = either_way(random, submission.to_vec(), beside);
    let own = Pair::new(random, first, second);
    let other = &kept[random.below(kept.len())];
    let [first, second] = related(random, other);
    vec![own, Pair::new(random, first, second)]
}

fn either_way(random: &mut Random, first: Vec<u8>, second: Vec<u8>) -> [Vec<u8>; 2] {
    if random.chance(70) {
        [first, second]
    } else {
        [second, first]
    }
}

/// What to join with a submission: itself, a relative where it passes checks 1 to 5, or the other, which
/// may be damaged.
fn beside(random: &mut Random, submission: &[u8], other: &Bodies) -> Vec<u8> {
    let is_good = reference::guess(submission).is_ok();
    match random.weighted(&[8, 60, 22, 10]) {
        0 => submission.to_vec(),
        1 if is_good => {
            let own = Bodies::read(submission).expect("check 2 is passed");
            relative(random, &own).submission()
        }
        3 => damaged(random, other),
        _ => other.submission(),
    }
}

/// A protocol and a relative of it, or its messages heard by two, or such as have a pool with counts at a
/// limit; perhaps with a fault in one of them or in both.
fn related(random: &mut Random, own: &Bodies) -> [Vec<u8>; 2] {
    let [first, second] = match random.weighted(&[55, 30, 15]) {
        0 => [own.clone(), relative(random, own)],
        1 => shared(random, own),
        _ => near_limits(random, own),
    };
    let (first_is_bad, second_is_bad) =
        [(false, false), (true, false), (false, true), (true, true)]
            [random.weighted(&[80, 5, 10, 5])];
    let mut written = |bodies: &Bodies, is_bad| {
        if is_bad {
            damaged(random, bodies)
        } else {
            bodies.submission()
        }
    };
    [written(&first, first_is_bad), written(&second, second_is_bad)]
}

/// Most often refused with one of 1 to 5.
fn damaged(random: &mut Random, bodies: &Bodies) -> Vec<u8> {
    match random.weighted(&[30, 20, 50]) {
        0 => damage::changed_bytes(random, &bodies.submission()),
        1 => miscounted(random, bodies),
        _ => damage::changed_records(random, bodies).submission(),
    }
}

/// One body with too many records, or with too few.
fn miscounted(random: &mut Random, own: &Bodies) -> Vec<u8> {
    let mut bodies = own.bytes();
    let body = random.pick(&Body::ALL);
    let is_over = body.least() == 0 || random.chance(50);
    let count = if is_over { body.most() + 1 } else { body.least() - 1 };
    let zeros = vec![0; count * body.record()];
    bodies[body as usize] = &zeros;
    bodies::submission(bodies)
}

/// The protocol without some of its messages, and a relative of it that may have these. Perhaps besides a
/// message that the first has heard, and its key, that the second may have.
fn shared(random: &mut Random, own: &Bodies) -> [Bodies; 2] {
    let [mut first, mut other] = [own.clone(), own.clone()];
    let missed = random.pick(&[10, 30, 100]);
    first.knowledge.retain(|_| !random.chance(missed));
    let mut table = Table::of(&own.terms);
    let term = random.pick(&table.numbers().collect::<Vec<u8>>());
    if table.records.len() + 2 <= Body::Terms.most() && random.chance(50) {
        let key = table.atom(Kind::Plain, random.number() as u16);
        let message = table.compound(Kind::Enc, &[term, key]);
        [first.terms, other.terms] = [table.records.clone(), table.records];
        know(&mut first, message);
        know(&mut other, key);
    }
    [first, relative(random, &other)]
}

/// Adds an entry, where there is room and it is not there yet.
fn know(bodies: &mut Bodies, entry: u8) {
    if bodies.knowledge.len() < Body::Knowledge.most() && !bodies.knowledge.contains(&entry) {
        bodies.knowledge.push(entry);
    }
}

/// The counts of the pool that are aimed at: at a limit, next to it, such as are within it in their low
/// byte, or far over it.
const TERMS: [usize; 8] = [200, 249, 250, 250, 251, 251, 256, 400];
const ENTRIES: [usize; 8] = [20, 63, 64, 64, 65, 65, 66, 128];

/// The protocol and a relative of it, padded with terms and entries until their pool has so many, or as
/// many as it can have.
fn near_limits(random: &mut Random, own: &Bodies) -> [Bodies; 2] {
    let [terms, entries] = [random.pick(&TERMS), random.pick(&ENTRIES)];
    let fill = random.pick(&[own.terms.len(), 100, 180, Body::Terms.most()]);
    let known = random.pick(&[0, 30, Body::Knowledge.most()]).min(entries);
    let first = padded(own, fill.min(terms), known, 0);
    let model = if random.chance(50) { own } else { &first };
    let mut second = relative(random, model);
    let joint = Joint::of(&first.submission(), &second.submission());
    let Ok([pooled_terms, pooled_entries]) = joint.map(|joint| joint.counts()) else {
        return [first, second];
    };
    let room = Body::Terms.most() - second.terms.len();
    let fresh = fresh(&first, &second, terms.saturating_sub(pooled_terms).min(room));
    let room = Body::Knowledge.most() - second.knowledge.len();
    let missing = entries.saturating_sub(pooled_entries).min(room);
    let start = second.terms.len();
    second.knowledge.extend((start..start + fresh.len()).take(missing).map(|number| number as u8));
    second.terms.extend(fresh);
    [first, second]
}

/// So many atoms that neither of the two lists.
fn fresh(first: &Bodies, second: &Bodies, count: usize) -> Vec<[u8; 3]> {
    let atoms = (0..=u16::MAX).rev().map(|name| {
        let [high, low] = name.to_be_bytes();
        [Kind::Plain.number(), high, low]
    });
    let is_listed = |atom: &[u8; 3]| first.terms.contains(atom) || second.terms.contains(atom);
    atoms.filter(|atom| !is_listed(atom)).take(count).collect()
}

/// The length of a page for the pool: none, too short, exact, longer, or one that is too short in its low
/// two bytes.
fn page_length(random: &mut Random, first: &[u8], second: &[u8]) -> usize {
    let pool = || Joint::of(first, second).and_then(|joint| joint.submission());
    let needed = || pool().map_or(LONGEST_SUBMISSION, |pool| pool.len());
    match random.weighted(&[5, 10, 5, 25, 10, 44, 1]) {
        0 => 0,
        1 => needed() - 1,
        2 => random.below(needed()),
        3 => needed(),
        4 => needed() + random.between(1, 20),
        5 => LONGEST_SUBMISSION,
        _ => 65_536 + random.below(needed()),
    }
}
