//! Submissions of regular shape that make much work. All of them but the towers and the atoms pass
//! checks 1 to 7, and the search for what is deducible goes on until nothing more opens.

use super::limits::padded;
use super::steps::{building, step};
use super::table::Table;
use crate::bodies::Bodies;
use crate::tables::{Body, Kind, Rule, Way, IN_KNOWLEDGE};

/// The first name of the atoms that a shape adds.
pub const FRESH: u16 = 100;

/// A table, and what is known over it, around one verifying step: n and enc(n, g) are known, and
/// dec with the guess g gives n.
struct Frame {
    table: Table,
    bodies: Bodies,
}

impl Frame {
    fn new() -> Frame {
        let mut table = Table::default();
        let n = table.atom(Kind::Plain, 1);
        let guess = table.atom(Kind::Plain, 2);
        let message = table.compound(Kind::Enc, &[n, guess]);
        let bodies = Bodies {
            knowledge: vec![n, message],
            derivation: vec![step(Rule::Dec, &[message, guess], n)],
            claim: [guess, 0, Way::KnownBefore.letter(), 0],
            ..Bodies::default()
        };
        Frame { table, bodies }
    }

    /// A fresh atom of this kind; atoms of both key kinds with one index are inverse.
    fn atom(&mut self, kind: Kind, index: usize) -> u8 {
        self.table.atom(kind, FRESH + index as u16)
    }

    /// The term hashed so many times.
    fn hashed(&mut self, term: u8, times: usize) -> u8 {
        (0..times).fold(term, |inner, _| self.table.compound(Kind::Hash, &[inner]))
    }

    /// Makes the messages known, in pairs where there are too many.
    fn know(&mut self, mut messages: Vec<u8>) {
        let room = Body::Knowledge.most() - self.bodies.knowledge.len();
        while messages.len() > room {
            let pairs = messages.split_off(messages.len() - 2);
            messages.push(self.table.compound(Kind::Pair, &pairs));
        }
        self.bodies.knowledge.extend(messages);
    }

    fn finish(self) -> Bodies {
        Bodies { terms: self.table.records, ..self.bodies }
    }
}

/// Accepted, with all counts at their limits: an encryption under the guess of nested pairs, and
/// steps that take the last part out of them.
pub fn largest() -> Bodies {
    let mut table = Table::default();
    let guess = table.atom(Kind::Plain, 0);
    let levels = Body::Derivation.most() - 1;
    let atoms: Vec<u8> = (FRESH..)
        .take(Body::Terms.most() - levels - 2)
        .map(|name| table.atom(Kind::Plain, name))
        .collect();
    let mut nested = vec![atoms[0]];
    for level in 0..levels {
        let beside = atoms[atoms.len() - 1 - level % (atoms.len() / 2)];
        nested.push(table.compound(Kind::Pair, &[beside, nested[level]]));
    }
    let message = table.compound(Kind::Enc, &[nested[levels], guess]);
    let opening = step(Rule::Dec, &[message, guess], nested[levels]);
    Bodies {
        terms: table.records,
        knowledge: [message].into_iter().chain(atoms).take(Body::Knowledge.most()).collect(),
        derivation: [vec![opening], taking_seconds(&nested)].concat(),
        claim: [guess, levels as u8, Way::KnownBefore.letter(), 0],
    }
}

/// The steps that take the first of these terms out of the last. Each term after the first is a pair,
/// and the former its second part.
fn taking_seconds(nested: &[u8]) -> Vec<[u8; 4]> {
    nested.windows(2).rev().map(|parts| step(Rule::Snd, &[parts[1]], parts[0])).collect()
}

/// Accepted in this way, which says that the guess or its inverse is deducible, with all counts at
/// their limits: the steps take that term out of nested pairs. The claim names the last of them, or
/// the term is the last entry of the knowledge.
pub fn largest_deducible(way: Way, is_entry: bool) -> Bodies {
    let mut table = Table::default();
    let guess = table.atom(Kind::Public, 0);
    table.atom(Kind::Private, 0);
    let beside = table.atom(Kind::Plain, 0);
    let term = table.claimed(guess, way).expect("a term that is claimed");
    let steps = Body::Derivation.most();
    let terms = table.records.len() + steps;
    let nested = Nesting::RightPairs.nest(&mut table, term, beside, terms);
    let last = if is_entry { IN_KNOWLEDGE } else { (steps - 1) as u8 };
    let bodies = Bodies {
        terms: table.records,
        knowledge: vec![nested[steps - 1]],
        derivation: taking_seconds(&[vec![term], nested].concat()),
        claim: [guess, last, way.letter(), 0],
    };
    let known = Body::Knowledge.most() - usize::from(is_entry);
    let mut bodies = padded(&bodies, Body::Terms.most(), known, steps);
    bodies.knowledge.extend(is_entry.then_some(term));
    bodies
}

/// How atoms are named: so that both bytes of their names differ, or the high byte only; or so that the
/// checker, where it looks for an equal record, looks at many others in both of the chains in which that is.
#[derive(Clone, Copy)]
pub enum Naming {
    BothBytes,
    OneLowByte,
    LongestLookup,
}

impl Naming {
    /// A name for each index up to 255.
    fn name(self, index: usize) -> u16 {
        let index = index as u8;
        match self {
            Naming::BothBytes => u16::from_be_bytes([index.wrapping_mul(37), index]),
            Naming::OneLowByte => u16::from_be_bytes([index, 5]),
            Naming::LongestLookup => in_chains(cell(index)),
        }
    }
}

/// The name x, y of an atom that is in chains a and b, where a = 21x + y and b = 42x + y, modulo 256. 61 is the inverse of 21.
fn in_chains((a, b): (u8, u8)) -> u16 {
    let x = b.wrapping_sub(a).wrapping_mul(61);
    let y = a.wrapping_mul(2).wrapping_sub(b);
    u16::from_be_bytes([x, y])
}

/// The cells of a grid one after the other, so that as many as there are make a square or nearly one.
fn cell(index: u8) -> (u8, u8) {
    let side = index.isqrt();
    let beyond = index - side * side;
    if beyond <= side {
        (side, beyond)
    } else {
        (beyond - side - 1, side)
    }
}

/// Atoms alone, up to the limit on terms: all of the first kind, then as many of the next or nearly so, with
/// the same names. No step, so check 5 refuses it.
pub fn atoms(kinds: &[Kind], naming: Naming) -> Bodies {
    let mut table = Table::default();
    let most = Body::Terms.most();
    for &kind in kinds {
        for index in 0..most.div_ceil(kinds.len()) {
            table.atom(kind, naming.name(index));
        }
    }
    table.records.truncate(most);
    Bodies { terms: table.records, ..Bodies::default() }
}

/// Atoms up to half of the limit on terms, then a hash of each. No step, so check 5 refuses it.
pub fn hashed(naming: Naming) -> Bodies {
    let mut table = Table::default();
    let half = Body::Terms.most() / 2;
    let atoms: Vec<u8> =
        (0..half).map(|index| table.atom(Kind::Plain, naming.name(index))).collect();
    for atom in atoms {
        table.compound(Kind::Hash, &[atom]);
    }
    Bodies { terms: table.records, ..Bodies::default() }
}

/// Keys of different names up to the limit on terms, beside what verifies the guess: as many of the first
/// kind as of the next. Nobody knows them.
pub fn keys_beside(kinds: &[Kind], naming: Naming) -> Bodies {
    let mut frame = Frame::new();
    let most = Body::Terms.most();
    for index in frame.table.records.len()..most {
        frame.table.atom(kinds[index * kinds.len() / most], naming.name(index));
    }
    frame.finish()
}

/// Of the shapes with 1 part, with 2 and so on, the largest that is below so many terms, with atoms
/// that nobody knows up to these.
pub fn filled(terms: usize, shape: impl Fn(usize) -> Bodies) -> Bodies {
    let below = (1..).map(shape).take_while(|bodies| bodies.terms.len() < terms);
    padded(&below.last().expect("one part fits"), terms, 0, 0)
}

/// The guess, and compounds nested around it up to `terms` terms. The steps build so many of these,
/// and the last of them is known. Accepted where nothing takes it apart.
pub fn built(nesting: Nesting, terms: usize, steps: usize) -> Bodies {
    let mut table = Table::default();
    let guess = table.atom(Kind::Plain, 0);
    let beside = table.atom(nesting.beside(), 0);
    let nested = nesting.nest(&mut table, guess, beside, terms);
    let known_atom = Some(beside).filter(|&atom| atom != guess);
    Bodies {
        knowledge: [nested[steps - 1]].into_iter().chain(known_atom).collect(),
        derivation: nested[..steps].iter().map(|&term| building(&table, term)).collect(),
        claim: [guess, (steps - 1) as u8, Way::KnownBefore.letter(), 0],
        terms: table.records,
    }
}

/// The same with the most steps, and with all counts at their limits.
pub fn largest_built(nesting: Nesting) -> Bodies {
    let steps = Body::Derivation.most();
    let bodies = built(nesting, steps + 2, steps);
    padded(&bodies, Body::Terms.most(), Body::Knowledge.most(), steps)
}

/// The guess, then fresh atoms, of which as many as can be are known, then compounds nested around the
/// guess, one for each instruction that a program may have, up to the limit on terms. There is no step,
/// and check 16 refuses the claim.
pub fn listed_last(nesting: Nesting) -> Bodies {
    let mut table = Table::default();
    let guess = table.atom(Kind::Plain, 0);
    let beside = table.atom(nesting.beside(), 0);
    let most = Body::Terms.most();
    let fresh = most - Body::Derivation.most() - table.records.len();
    let atoms: Vec<u8> = (FRESH..).take(fresh).map(|name| table.atom(Kind::Plain, name)).collect();
    nesting.nest(&mut table, guess, beside, most);
    Bodies {
        terms: table.records,
        knowledge: atoms.into_iter().take(Body::Knowledge.most()).collect(),
        derivation: vec![],
        claim: [guess, IN_KNOWLEDGE, Way::DeducibleGuess.letter(), 0],
    }
}

/// How a term is nested: what is built of the former term and an atom beside it.
#[derive(Clone, Copy)]
pub enum Nesting {
    LeftPairs,
    RightPairs,
    AlternatingPairs,
    DoublingPairs,
    Enc,
    Enca,
    Hashes,
    HashedKeys,
}

impl Nesting {
    pub const ALL: [(&'static str, Nesting); 8] = [
        ("pairs nested on the left", Nesting::LeftPairs),
        ("pairs nested on the right", Nesting::RightPairs),
        ("pairs nested on either side", Nesting::AlternatingPairs),
        ("pairs nested on both sides", Nesting::DoublingPairs),
        ("nested enc", Nesting::Enc),
        ("nested enca", Nesting::Enca),
        ("hashes of hashes", Nesting::Hashes),
        ("keys that are hashes of what such keys lock", Nesting::HashedKeys),
    ];

    /// The kind of the atom beside each term, which is the key of an encryption.
    fn beside(self) -> Kind {
        match self {
            Nesting::Enca => Kind::Public,
            _ => Kind::Plain,
        }
    }

    /// The kind of the compound at this level, and its operands.
    fn compound(self, level: usize, former: u8, beside: u8) -> (Kind, Vec<u8>) {
        let is_odd = level % 2 == 1;
        match self {
            Nesting::LeftPairs => (Kind::Pair, vec![former, beside]),
            Nesting::RightPairs => (Kind::Pair, vec![beside, former]),
            Nesting::AlternatingPairs => {
                let side = if is_odd { Nesting::LeftPairs } else { Nesting::RightPairs };
                side.compound(level, former, beside)
            }
            Nesting::DoublingPairs => (Kind::Pair, vec![former, former]),
            Nesting::Enc => (Kind::Enc, vec![former, beside]),
            Nesting::Enca => (Kind::Enca, vec![former, beside]),
            Nesting::HashedKeys if !is_odd => (Kind::Enc, vec![beside, former]),
            Nesting::HashedKeys | Nesting::Hashes => (Kind::Hash, vec![former]),
        }
    }

    /// Nests the innermost term until the table has this many terms. Answers the compounds.
    fn nest(self, table: &mut Table, innermost: u8, beside: u8, terms: usize) -> Vec<u8> {
        let mut top = innermost;
        (table.records.len()..terms)
            .map(|level| {
                let (kind, operands) = self.compound(level, top, beside);
                top = table.compound(kind, &operands);
                top
            })
            .collect()
    }
}

/// The deepest of so many terms, all of one known atom. No step, so check 5 refuses it.
pub fn tower(nesting: Nesting, terms: usize) -> Bodies {
    let mut table = Table::default();
    let atom = table.atom(nesting.beside(), 0);
    nesting.nest(&mut table, atom, atom, terms);
    Bodies { terms: table.records, knowledge: vec![atom], ..Bodies::default() }
}

/// An atom of this kind, and so many terms with the pairs of which each holds the former twice. The last
/// is known, so that all steps take apart. None is listed, so check 5 refuses it.
pub fn tower_known(atom: Kind, terms: usize) -> Bodies {
    let mut table = Table::default();
    let atom = table.atom(atom, 0);
    let pairs = Nesting::DoublingPairs.nest(&mut table, atom, atom, terms);
    Bodies { terms: table.records, knowledge: vec![pairs[pairs.len() - 1]], ..Bodies::default() }
}

/// A deep term that is hidden under the guess; the last of two steps hashes it, and the hash is
/// known. Accepted, unless the term can be built without the guess: where its innermost atom is
/// known.
pub fn nested(nesting: Nesting, known: bool) -> Bodies {
    let mut table = Table::default();
    let guess = table.atom(Kind::Plain, 0);
    let innermost = table.atom(Kind::Plain, 1);
    let beside = table.atom(nesting.beside(), 2);
    let nested = nesting.nest(&mut table, innermost, beside, Body::Terms.most() - 2);
    let top = nested[nested.len() - 1];
    let message = table.compound(Kind::Enc, &[top, guess]);
    let hash = table.compound(Kind::Hash, &[top]);
    Bodies {
        terms: table.records,
        knowledge: [message, hash, beside].into_iter().chain(known.then_some(innermost)).collect(),
        derivation: vec![step(Rule::Dec, &[message, guess], top), step(Rule::Hash, &[top], hash)],
        claim: [guess, 1, Way::KnownBefore.letter(), 0],
    }
}

/// A message under a key that is as many hashes as can be listed, one of the other, of an atom that
/// may be known.
pub fn locked_by_hashes(known: bool) -> Bodies {
    let mut frame = Frame::new();
    let atom = frame.atom(Kind::Plain, 0);
    let hashes = Nesting::Hashes.nest(&mut frame.table, atom, atom, Body::Terms.most() - 1);
    let message = frame.table.compound(Kind::Enc, &[hashes[0], hashes[hashes.len() - 1]]);
    frame.know([message].into_iter().chain(known.then_some(atom)).collect());
    frame.finish()
}

/// Pairs of which each holds the former twice, up to `terms` terms; the last is known.
pub fn doubling_known(terms: usize) -> Bodies {
    let mut frame = Frame::new();
    let last = double(&mut frame, terms);
    frame.know(vec![last]);
    frame.finish()
}

/// The same, with another atom listed first, which is part of nothing.
pub fn doubling_known_beside(terms: usize) -> Bodies {
    let mut frame = Frame::new();
    frame.atom(Kind::Plain, 1);
    let last = double(&mut frame, terms);
    frame.know(vec![last]);
    frame.finish()
}

/// The same pairs, of which only the atom is known.
pub fn doubling_asked(terms: usize) -> Bodies {
    let mut frame = Frame::new();
    double(&mut frame, terms);
    let atom = frame.atom(Kind::Plain, 0);
    frame.know(vec![atom]);
    frame.finish()
}

fn double(frame: &mut Frame, terms: usize) -> u8 {
    let mut last = frame.atom(Kind::Plain, 0);
    while frame.table.records.len() < terms {
        last = frame.table.compound(Kind::Pair, &[last, last]);
    }
    last
}

/// In which order the links of a chain are listed: each opens one that is listed after it, or
/// before it.
#[derive(Clone, Copy)]
pub enum Order {
    Rising,
    Falling,
}

impl Order {
    pub const ALL: [(&'static str, Order); 2] =
        [("rising", Order::Rising), ("falling", Order::Falling)];
}

/// Encryptions under keys that have an inverse. Each hides the key of this kind that opens the next; the
/// first is known.
pub fn inverse_key_chain(opener: Kind, links: usize, order: Order) -> Bodies {
    let mut frame = Frame::new();
    let lock = opener.inverse().expect("a key with an inverse");
    let keys: Vec<u8> = (0..=links).map(|index| frame.atom(opener, index)).collect();
    let links: Vec<[u8; 2]> =
        (0..links).map(|link| [keys[link + 1], frame.atom(lock, link)]).collect();
    let messages = chain(&mut frame, Kind::Enca, links, order);
    frame.know([vec![keys[0]], messages].concat());
    frame.finish()
}

/// Encryptions under plain keys, each of which hides the key of the next, beside encryptions under
/// a public key that nothing opens.
pub fn plain_key_chain(links: usize, locked: usize, order: Order) -> Bodies {
    let mut frame = Frame::new();
    let keys: Vec<u8> = (0..=links).map(|index| frame.atom(Kind::Plain, index)).collect();
    let links = keys.windows(2).map(|keys| [keys[1], keys[0]]).collect();
    let messages = chain(&mut frame, Kind::Enc, links, order);
    let locked = self::locked(&mut frame, locked);
    frame.know([vec![keys[0]], messages, locked].concat());
    frame.finish()
}

/// The secrets of a chain: atoms, or hashes of which each gives all the former ones.
#[derive(Clone, Copy)]
pub enum Secrets {
    Atoms,
    Hashes,
}

impl Secrets {
    pub const ALL: [(&'static str, Secrets); 2] =
        [("of atoms", Secrets::Atoms), ("down one chain", Secrets::Hashes)];

    /// So many secrets. Those that are hashes have `apart` hashes from one to the former.
    fn list(self, frame: &mut Frame, count: usize, apart: usize) -> Vec<u8> {
        if let Secrets::Atoms = self {
            return (0..count).map(|index| frame.atom(Kind::Plain, index)).collect();
        }
        let mut secrets = vec![frame.atom(Kind::Plain, 0)];
        while secrets.len() < count {
            secrets.push(frame.hashed(secrets[secrets.len() - 1], apart));
        }
        secrets.reverse();
        secrets
    }
}

/// Encryptions under keys that are `depth` hashes, one of the other, of a secret. Each hides the
/// secret of the next; the first secret is known. With no depth the key is the secret itself, which
/// has to be built only where the secrets are hashes.
pub fn hash_key_chain(secrets: Secrets, links: usize, depth: usize, order: Order) -> Bodies {
    let mut frame = Frame::new();
    let secrets = secrets.list(&mut frame, links + 1, depth + 1);
    let links: Vec<[u8; 2]> =
        secrets.windows(2).map(|secrets| [secrets[1], frame.hashed(secrets[0], depth)]).collect();
    let messages = chain(&mut frame, Kind::Enc, links, order);
    frame.know([vec![secrets[0]], messages].concat());
    frame.finish()
}

/// Encryptions under such keys, one in the other: each hides the next beside the secret of its key.
pub fn nested_hash_keys(links: usize, depth: usize) -> Bodies {
    let mut frame = Frame::new();
    let secrets = Secrets::Atoms.list(&mut frame, links + 1, depth + 1);
    let mut message = secrets[links];
    for secrets in secrets.windows(2).rev() {
        let pair = frame.table.compound(Kind::Pair, &[secrets[1], message]);
        let key = frame.hashed(secrets[0], depth);
        message = frame.table.compound(Kind::Enc, &[pair, key]);
    }
    frame.know(vec![secrets[0], message]);
    frame.finish()
}

/// Lists the links, each a message and the key that locks it.
fn chain(frame: &mut Frame, kind: Kind, mut links: Vec<[u8; 2]>, order: Order) -> Vec<u8> {
    if let Order::Falling = order {
        links.reverse();
    }
    links.iter().map(|link| frame.table.compound(kind, link)).collect()
}

/// Nested pairs known from the outside, and encryptions under a public key that nothing opens: some
/// known, and one beside each of the outer pairs.
pub fn nested_pairs(levels: usize, beside: usize, known: usize) -> Bodies {
    let mut frame = Frame::new();
    let mut locked = locked(&mut frame, beside + known);
    let mut nested = frame.atom(Kind::Plain, 0);
    for level in 0..levels {
        let next = if level < levels - beside { Some(nested) } else { locked.pop() };
        let next = next.expect("an encryption for each outer pair");
        nested = frame.table.compound(Kind::Pair, &[nested, next]);
    }
    frame.know([vec![nested], locked].concat());
    frame.finish()
}

/// Encryptions, each of the former, under one public key whose inverse is not listed.
fn locked(frame: &mut Frame, count: usize) -> Vec<u8> {
    let key = frame.atom(Kind::Public, 0);
    let mut inner = key;
    (0..count)
        .map(|_| {
            inner = frame.table.compound(Kind::Enca, &[inner, key]);
            inner
        })
        .collect()
}
