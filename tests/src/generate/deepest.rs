//! The inputs on which the calls may need the most stack: terms nested as deep as the limit on terms
//! allows, the longest derivations, the longest deductions, and the longest programs.

use super::names::Names;
use super::program::{repeated, shortest};
use super::shapes::{self, Naming, Nesting, Order, Secrets};
use super::{
    astray, claimed_term, farthest, joinable, turned, Form, Input, Pair, Sent, Sheet, UNLISTED,
};
use crate::bodies::Bodies;
use crate::reference;
use crate::tables::{
    Body, Kind, Rule, Test, Way, LONGEST_PROGRAM, LONGEST_READ_BACK, LONGEST_SUBMISSION,
    SHORTEST_SHEET,
};

/// The inputs, each with a title.
pub fn deepest() -> Vec<(String, Input)> {
    let mut titled: Vec<(String, Bodies)> = Vec::new();
    for (title, nesting) in Nesting::ALL {
        let tower = shapes::tower(nesting, Body::Terms.most());
        titled.push((format!("{title} up to the limit"), tower));
        titled.push((format!("{title} over a known atom"), shapes::nested(nesting, true)));
        titled.push((format!("{title} over a hidden atom"), shapes::nested(nesting, false)));
    }
    titled.extend([
        ("the most steps, taking apart".to_string(), shapes::largest()),
        ("the most steps, building".to_string(), shapes::largest_built(Nesting::Enca)),
        ("the most steps, hashing".to_string(), shapes::largest_built(Nesting::Hashes)),
        ("doubling pairs known".to_string(), shapes::doubling_known(Body::Terms.most())),
        ("hashes of the guess".to_string(), shapes::built(Nesting::Hashes, Body::Terms.most(), 1)),
        ("a key of hashes of a known atom".to_string(), shapes::locked_by_hashes(true)),
        ("a key of hashes of a hidden atom".to_string(), shapes::locked_by_hashes(false)),
        ("doubling pairs listed last".to_string(), shapes::listed_last(Nesting::DoublingPairs)),
        ("hashes listed last".to_string(), shapes::listed_last(Nesting::Hashes)),
        (
            "pairs of keys up to the limit".to_string(),
            shapes::atoms(&[Kind::Public, Kind::Private], Naming::OneLowByte),
        ),
    ]);
    for way in [Way::DeducibleInverse, Way::DeducibleGuess] {
        for (word, is_entry) in [("last step", false), ("last entry", true)] {
            let title = format!("the most steps, way {}, {word}", char::from(way.letter()));
            titled.push((title, shapes::largest_deducible(way, is_entry)));
        }
    }
    titled.extend(longest_deductions());
    titled.into_iter().map(|(title, bodies)| (title, input(&bodies))).collect()
}

/// Terms to which as many steps lead as can, or as a derivation has at most; and the longest chains of
/// messages of which each opened one gives the key of the next.
fn longest_deductions() -> Vec<(String, Bodies)> {
    let mut titled = Vec::new();
    let accepted = Body::Derivation.most() + 1;
    for (title, nesting) in Nesting::ALL {
        titled.push((format!("{title}, 128 steps"), shapes::tower(nesting, accepted)));
    }
    for kind in Kind::atoms() {
        for terms in [accepted, Body::Terms.most()] {
            let title = format!("{} atom in pairs of pairs, {} steps", kind.word(), terms - 1);
            titled.push((title, shapes::tower_known(kind, terms)));
        }
    }
    for (word, order) in Order::ALL {
        for (opener, _) in Kind::inverses() {
            let chain = shapes::inverse_key_chain(opener, 76, order);
            titled.push((format!("chain of {} keys, {word}", opener.word()), chain));
        }
        titled
            .push((format!("chain of plain keys, {word}"), shapes::plain_key_chain(81, 0, order)));
        for (title, secrets) in Secrets::ALL {
            let title = format!("chain of keys that are hashes {title}, {word}");
            titled.push((title, shapes::hash_key_chain(secrets, 76, 1, order)));
        }
        let chain = shapes::hash_key_chain(Secrets::Hashes, 102, 0, order);
        titled.push((format!("chain of hashes as keys, {word}"), chain));
    }
    for (depth, links) in [(0, 82), (1, 61), (2, 49)] {
        let title = format!("nested messages, their keys {depth} hashes of a secret");
        titled.push((title, shapes::nested_hash_keys(links, depth)));
    }
    titled
}

/// Asks for the last three terms, of which one is the deepest, for the first, for one too many, and
/// for the term claimed; and for the deductions of these and of the term that is farthest.
fn input(bodies: &Bodies) -> Input {
    let submission = bodies.submission();
    let names = [Names::of(&submission).own_and_parts(), vec![UNLISTED]].concat();
    let terms = bodies.terms.len() as u8;
    let asked: Vec<u8> = [terms - 3, terms - 2, terms - 1, 0, terms]
        .into_iter()
        .chain(claimed_term(bodies))
        .collect();
    let sheet = |term: u8| Sheet { term, page: vec![0xA5; SHORTEST_SHEET] };
    Input {
        page: vec![0xA5; LONGEST_PROGRAM],
        sheets: asked.iter().copied().chain(farthest(&submission)).map(sheet).collect(),
        asked,
        runs: runs(bodies, &names),
        names,
        forms: vec![Form::new(bodies.bytes(), LONGEST_SUBMISSION)],
        inverse_pages: vec![vec![0xA5; Body::Terms.most()]],
        sent: sent(bodies, &submission),
        pairs: pairs(bodies),
        submission,
    }
}

/// The terms and the knowledge with a claim that passes check 5: joined with themselves, in the same order
/// and from the last on; and, but for the last terms, with others that come before them or after.
fn pairs(bodies: &Bodies) -> Vec<Pair> {
    let whole = joinable(bodies);
    let others = [1, 2, 3].map(|low| [Kind::Plain.number(), u8::MAX, low]);
    let others = joinable(&Bodies { terms: others.to_vec(), ..Bodies::default() });
    let terms = whole.terms.len().min(Body::Terms.most() - others.terms.len());
    let mut cut = whole.clone();
    cut.terms.truncate(terms);
    cut.knowledge.retain(|&entry| usize::from(entry) < terms);
    let turned = turned(&whole);
    let [whole, cut, others, turned] =
        [whole, cut, others, turned].map(|bodies| bodies.submission());
    let pairs = [[&whole, &whole], [&whole, &turned], [&others, &cut], [&cut, &others]];
    let with_room = pairs.map(|[first, second]| Pair::with_room(first, second));
    with_room.map(|pair| Pair { is_asked: false, ..pair }).into()
}

/// The submission's own program, where it is accepted, as it is and with another last instruction; and
/// the long programs.
fn sent(bodies: &Bodies, submission: &[u8]) -> Vec<Sent> {
    let guess = bodies.knowledge.len() as u8;
    let own = reference::program(submission).ok();
    let changed = own.as_ref().map(|own| astray(own, guess));
    own.into_iter()
        .chain(changed)
        .chain(programs(bodies))
        .map(|program| Sent { program, page: vec![0xA5; LONGEST_READ_BACK] })
        .collect()
}

/// Long programs with the guess's own name, which comes first, and with a fresh one; and a short
/// program with each of the names.
fn runs(bodies: &Bodies, names: &[u16]) -> Vec<(u16, Vec<u8>)> {
    let guess = bodies.knowledge.len() as u8;
    let short = shortest(Test::Equal, [guess, guess]);
    let mut runs: Vec<_> = names.iter().map(|&name| (name, short.clone())).collect();
    for program in programs(bodies) {
        runs.extend([names[0], UNLISTED].map(|name| (name, program.clone())));
    }
    runs
}

/// Each rule over its own last result: with that result as its second operand too, and with the
/// guess.
fn programs(bodies: &Bodies) -> Vec<Vec<u8>> {
    let guess = bodies.knowledge.len() as u8;
    Rule::ALL
        .into_iter()
        .flat_map(|rule| [repeated(rule, guess, |last| last), repeated(rule, guess, |_| guess)])
        .collect()
}
