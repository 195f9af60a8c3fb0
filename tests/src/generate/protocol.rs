//! Random protocols: atoms, messages over them, a guess, what is overheard, a founded derivation,
//! and a claim that the reference accepts where one is found.

use super::random::Random;
use super::steps::{builds, possible, premises, TermSet};
use super::table::Table;
use crate::bodies::Bodies;
use crate::reference;
use crate::tables::{Body, Companion, Kind, Way, IN_KNOWLEDGE};

/// The most counts of a protocol.
pub struct Size {
    pub compounds: usize,
    pub steps: usize,
}

/// How many protocols are tried for one that is accepted, and how many claims for each.
const PROTOCOLS: usize = 4;
const CLAIMS: usize = 8;

/// A protocol, in most cases one that is accepted in a way chosen beforehand.
pub fn protocol(random: &mut Random, size: &Size) -> Bodies {
    let way = random.pick(&Way::ALL);
    let mut bodies = one_protocol(random, size, way);
    if random.chance(75) {
        for _ in 1..PROTOCOLS {
            if bodies.claim[2] == way.letter() && is_accepted(&bodies) {
                break;
            }
            bodies = one_protocol(random, size, way);
        }
    }
    bodies
}

fn one_protocol(random: &mut Random, size: &Size, way: Way) -> Bodies {
    let mut table = Table::default();
    let guess = atoms(random, &mut table, way);
    for _ in 0..random.between(1, size.compounds) {
        compound(random, &mut table, guess);
    }
    let telling = telling_messages(random, &mut table, guess, way);
    let mut knowledge = overheard(random, &table, guess, &telling, way);
    match random.weighted(&[94, 5, 1]) {
        0 => (),
        1 => forget(&table, guess, &mut knowledge),
        _ => knowledge.clear(),
    }
    let derivation = walk(random, &table, &knowledge, guess, way, size.steps);
    let mut bodies = Bodies { terms: table.records.clone(), knowledge, derivation, claim: [0; 4] };
    bodies.claim = claim(random, &bodies, &table, guess, way);
    bodies
}

/// Lists atoms with few names, so that keys have inverses and kinds share names. Answers the guess,
/// now and then one that this way can't have.
fn atoms(random: &mut Random, table: &mut Table, way: Way) -> u8 {
    let base = random.number() as u16;
    for _ in 0..random.between(1, 5) {
        let name = base.wrapping_add(random.below(6) as u16);
        table.atom(Kind::Plain, name);
    }
    for _ in 0..random.below(9) {
        let name = base.wrapping_add(random.below(4) as u16);
        let kind = random.pick(&Kind::atoms());
        table.atom(kind, name);
    }
    let kinds = if random.chance(10) { Kind::atoms() } else { way.guesses().to_vec() };
    let kind = random.pick(&kinds);
    let guess = table.atom(kind, base);
    if random.chance(80) {
        // The inverse, or beside a guess without one a key of the same name.
        table.atom(kind.inverse().unwrap_or(Kind::Private), base);
    }
    guess
}

/// Lists a compound, often one that the guess opens or that contains the guess.
fn compound(random: &mut Random, table: &mut Table, guess: u8) {
    let (kind, rule) = random.pick(&Kind::compounds());
    let first = any_term(random, table);
    let second = match kind.keys() {
        [] => Some(any_term(random, table)),
        keys => key(random, table, guess, keys),
    };
    if let Some(second) = second {
        table.compound(kind, &[first, second][..rule.operands()]);
    }
}

/// A listed term, often one of the last.
fn any_term(random: &mut Random, table: &Table) -> u8 {
    let count = table.records.len();
    let span = if random.chance(50) { count.min(6) } else { count };
    (count - 1 - random.below(span)) as u8
}

/// A listed key of one of the kinds, often the guess, its inverse, or one that is made from the
/// guess.
fn key(random: &mut Random, table: &Table, guess: u8, kinds: &[Kind]) -> Option<u8> {
    let all = table.of_kinds(kinds);
    let having = table.having(guess);
    let near: Vec<u8> = all
        .iter()
        .copied()
        .filter(|&number| having[usize::from(number)] || table.inverse(guess) == Some(number))
        .collect();
    let from = if near.is_empty() || random.chance(35) { all } else { near };
    (!from.is_empty()).then(|| random.pick(&from))
}

/// Messages that may show what is claimed in this way. For a verifier: two that hide the same term,
/// one that hides a term that is known, or one that hides a key whose inverse is known or hidden as
/// well; now and then the guess gives the term too, without the message. For a term that is
/// deducible: those that give it away, and now and then the guess too.
fn telling_messages(random: &mut Random, table: &mut Table, guess: u8, way: Way) -> Vec<u8> {
    let term =
        if random.chance(20) { hashed(random, table, guess) } else { any_term(random, table) };
    match way {
        Way::AnotherStep => {
            vec![hidden(random, table, guess, term), hidden(random, table, guess, term)]
        }
        Way::KnownBefore => vec![hidden(random, table, guess, term), term],
        Way::Inverse => {
            let name = random.number() as u16;
            let (kind, inverse_kind) = random.pick(&Kind::inverses());
            let (key, inverse) = (table.atom(kind, name), table.atom(inverse_kind, name));
            let message = hidden(random, table, guess, key);
            let hide_both = random.chance(50);
            vec![message, if hide_both { hidden(random, table, guess, inverse) } else { inverse }]
        }
        Way::DeducibleInverse | Way::DeducibleGuess => {
            let also = Some(guess).filter(|_| random.chance(30));
            let term = table.claimed(guess, way).unwrap_or(guess);
            let terms = [term].into_iter().chain(also);
            terms.flat_map(|term| giving(random, table, guess, term)).collect()
        }
    }
}

/// Messages that give the term away without the guess: the term itself, or such as hold it, each with
/// what opens it.
fn giving(random: &mut Random, table: &mut Table, guess: u8, term: u8) -> Vec<u8> {
    let mut messages: Vec<u8> = Some(term).filter(|_| random.chance(35)).into_iter().collect();
    for _ in 0..random.pick(&[0, 1, 1, 1, 2]) {
        let mut message = term;
        for _ in 0..random.between(1, 3) {
            let (whole, opener) = wrapped(random, table, guess, message);
            messages.extend(opener);
            message = whole;
        }
        messages.push(message);
    }
    messages
}

/// A compound that holds the term, and the key that opens it, if it needs one. Neither the guess nor
/// its inverse is the key.
fn wrapped(random: &mut Random, table: &mut Table, guess: u8, term: u8) -> (u8, Option<u8>) {
    let mut keys = table.of_kinds(&Kind::locking());
    keys.retain(|&key| !is_either(table, guess, key));
    if keys.is_empty() || random.chance(60) {
        return (paired(random, table, term), None);
    }
    let key = random.pick(&keys);
    (locked(table, term, key), Some(opposite(table, key)))
}

/// A pair of the term and another.
fn paired(random: &mut Random, table: &mut Table, term: u8) -> u8 {
    let beside = any_term(random, table);
    table.compound(Kind::Pair, &random.pick(&[[term, beside], [beside, term]]))
}

/// The term under the key.
fn locked(table: &mut Table, term: u8, key: u8) -> u8 {
    let kind = table.kind(key).and_then(Kind::locked_by).expect("what it locks");
    table.compound(kind, &[term, key])
}

/// The key that opens what this one locks, and locks what this one opens: itself, or its inverse,
/// which is listed if it was not.
fn opposite(table: &mut Table, key: u8) -> u8 {
    let inverse = table.as_atom(key).and_then(|(kind, name)| Some((kind.inverse()?, name)));
    inverse.map_or(key, |(kind, name)| table.atom(kind, name))
}

/// A message that the guess opens, with the term somewhere in it.
fn hidden(random: &mut Random, table: &mut Table, guess: u8, term: u8) -> u8 {
    let mut message = term;
    for _ in 0..random.below(3) {
        message = paired(random, table, message);
    }
    let key = key_opened_by(random, table, guess);
    locked(table, message, key)
}

/// A key that locks what the guess opens: itself, its inverse, or a hash that it gives.
fn key_opened_by(random: &mut Random, table: &mut Table, guess: u8) -> u8 {
    if random.chance(35) {
        return hashed(random, table, guess);
    }
    opposite(table, guess)
}

/// A hash of the guess, or of a pair of it and another term; now and then a hash of that.
fn hashed(random: &mut Random, table: &mut Table, guess: u8) -> u8 {
    let mut hashed = guess;
    if random.chance(30) {
        hashed = paired(random, table, guess);
    }
    for _ in 0..random.pick(&[1, 1, 1, 2, 3]) {
        hashed = table.compound(Kind::Hash, &[hashed]);
    }
    hashed
}

/// The telling messages and some other terms, compounds rather than atoms, and seldom a guess that
/// counts as known anyway.
fn overheard(random: &mut Random, table: &Table, guess: u8, telling: &[u8], way: Way) -> Vec<u8> {
    let mut knowledge: Vec<u8> = table
        .numbers()
        .filter(|&number| match table.as_atom(number) {
            _ if number == guess && way.knows_guess() => random.chance(2),
            _ if telling.contains(&number) => true,
            Some(_) => random.chance(15),
            None => random.chance(30),
        })
        .collect();
    random.shuffle(&mut knowledge);
    knowledge.truncate(Body::Knowledge.most());
    knowledge
}

/// Takes the messages out of the knowledge that the guess or its inverse is part of.
fn forget(table: &Table, guess: u8, knowledge: &mut Vec<u8>) {
    for atom in [Some(guess), table.inverse(guess)].into_iter().flatten() {
        let having = table.having(atom);
        knowledge.retain(|&message| !having[usize::from(message)]);
    }
}

/// A founded derivation: steps taken at random among the possible ones. Now and then the guess is a
/// premise though it doesn't count as known in this way, and now and then there is no step where the
/// way needs none.
fn walk(
    random: &mut Random,
    table: &Table,
    knowledge: &[u8],
    guess: u8,
    way: Way,
    most: usize,
) -> Vec<[u8; 4]> {
    let known_guess = Some(guess).filter(|_| way.knows_guess() || random.chance(8));
    let mut walk = Walk {
        keys: TermSet::new(table, table.of_kinds(&Kind::locking())),
        known: TermSet::new(table, knowledge.iter().copied().chain(known_guess)),
        guessed: TermSet::new(table, [guess]),
        steps: Vec::new(),
    };
    let no_step = way.may_be_entry() && random.chance(10);
    for _ in 0..if no_step { 0 } else { random.between(1, most) } {
        let steps = possible(table, &walk.known);
        let weights: Vec<usize> = steps.iter().map(|&step| walk.weight(step)).collect();
        if weights.iter().sum::<usize>() == 0 {
            break;
        }
        walk.take(steps[random.weighted(&weights)]);
    }
    walk.steps
}

struct Walk {
    /// The terms that may be keys.
    keys: TermSet,
    known: TermSet,
    /// What is known by steps that use the guess.
    guessed: TermSet,
    steps: Vec<[u8; 4]>,
}

impl Walk {
    fn take(&mut self, step: [u8; 4]) {
        if self.uses_guess(step) && !self.known.has(step[3]) {
            self.guessed.add(step[3]);
        }
        self.known.add(step[3]);
        self.steps.push(step);
    }

    /// Rather take apart than build, rather build a key than something else, rather use the guess,
    /// rather reach something new; seldom repeat a step.
    fn weight(&self, step: [u8; 4]) -> usize {
        if self.steps.contains(&step) {
            return 1;
        }
        let weight = match (builds(step), self.known.has(step[3])) {
            (false, false) => 40,
            (false, true) => 30,
            (true, true) => 15,
            (true, false) if self.keys.has(step[3]) => 10,
            (true, false) => 3,
        };
        if self.uses_guess(step) {
            8 * weight
        } else {
            weight
        }
    }

    fn uses_guess(&self, step: [u8; 4]) -> bool {
        premises(&step).iter().any(|&premise| self.guessed.has(premise))
    }
}

/// A claim with this guess: one that is accepted in this way if it is found, else one that could
/// hold, else any.
fn claim(random: &mut Random, bodies: &Bodies, table: &Table, guess: u8, way: Way) -> [u8; 4] {
    let mut claims = plausible(bodies, table, guess);
    random.shuffle(&mut claims);
    let accepted = claims
        .iter()
        .filter(|claim| claim[2] == way.letter())
        .take(CLAIMS)
        .find(|&&claim| is_accepted(&Bodies { claim, ..bodies.clone() }));
    let any = any_claim(random, bodies, guess, way);
    *accepted.or(claims.first()).filter(|_| random.chance(92)).unwrap_or(&any)
}

/// A claim whose step and companion are any, most often within their ranges.
fn any_claim(random: &mut Random, bodies: &Bodies, guess: u8, way: Way) -> [u8; 4] {
    let step = match random.weighted(&[64, 32, 4]) {
        0 => random.below(bodies.derivation.len().max(1)) as u8,
        1 => IN_KNOWLEDGE,
        _ => IN_KNOWLEDGE - 1,
    };
    let companion = match way.companion() {
        Companion::Zero if random.chance(75) => 0,
        _ => random.below(4) as u8,
    };
    [guess, step, way.letter(), companion]
}

fn is_accepted(bodies: &Bodies) -> bool {
    reference::program(&bodies.submission()).is_ok()
}

/// The claims for which the companion and the conclusion fit together; where something is claimed to
/// be deducible, those for which a step or the knowledge gives the guess or its inverse.
fn plausible(bodies: &Bodies, table: &Table, guess: u8) -> Vec<[u8; 4]> {
    let mut claims = Vec::new();
    for way in Way::ALL {
        let claim = |step, companion| [guess, step, way.letter(), companion];
        for step in 0..bodies.derivation.len() {
            let companions = companions(bodies, table, guess, step, way);
            claims.extend(companions.iter().map(|&companion| claim(step as u8, companion)));
        }
        let is_known = |&entry: &u8| is_either(table, guess, entry);
        if way.may_be_entry() && bodies.knowledge.iter().any(is_known) {
            claims.push(claim(IN_KNOWLEDGE, 0));
        }
    }
    claims
}

/// Whether the term is the guess or its inverse.
fn is_either(table: &Table, guess: u8, term: u8) -> bool {
    term == guess || table.inverse(guess) == Some(term)
}

/// The companions that may go with this step in this way.
fn companions(bodies: &Bodies, table: &Table, guess: u8, step: usize, way: Way) -> Vec<u8> {
    let Bodies { derivation, knowledge, .. } = bodies;
    let verifying = derivation[step];
    let [.., verifier] = verifying;
    let known_before = |term: u8| knowledge.contains(&term) || term == guess;
    let known = |term: u8| known_before(term) || derivation.iter().any(|step| step[3] == term);
    match way {
        Way::AnotherStep => (0..derivation.len())
            .filter(|&other| derivation[other][3] == verifier && derivation[other] != verifying)
            .map(|other| other as u8)
            .collect(),
        Way::KnownBefore => known_before(verifier).then_some(0).into_iter().collect(),
        Way::Inverse => {
            table.inverse(verifier).filter(|&inverse| known(inverse)).into_iter().collect()
        }
        Way::DeducibleInverse | Way::DeducibleGuess => {
            is_either(table, guess, verifier).then_some(0).into_iter().collect()
        }
    }
}
