//! Counts of what joining reached: by refusal, by page, by pair, by the kind of a term, by the kind of an
//! entry, by the way of the first's claim, and by what is deducible.

use checker_tests::bodies::Bodies;
use checker_tests::generate::Pair;
use checker_tests::reference::{self, Checked, Refusal};
use checker_tests::tables::{Body, Call, Claimed, Kind, Reason, Way, LONGEST_SUBMISSION};

use crate::tally::{cells, way_title};

/// A pool that passes check 20, with the submissions that it is of.
pub struct Pool<'a> {
    pub first: Bodies,
    pub second: Bodies,
    pub pool: Bodies,
    /// The number in the pool of each of the second's terms.
    pub numbers: &'a [u8],
}

impl Pool<'_> {
    /// The number in the second of the pool's term with this number.
    pub fn number_in_second(&self, number: usize) -> Option<usize> {
        self.numbers.iter().position(|&pooled| usize::from(pooled) == number)
    }

    /// The pool's number of the second's term.
    fn number(&self, term: usize) -> usize {
        self.numbers[term].into()
    }

    /// Whether the first has the second's term.
    fn is_found(&self, term: usize) -> bool {
        self.number(term) < self.first.terms.len()
    }

    fn is_renumbered(&self, term: usize) -> bool {
        self.number(term) != term
    }

    /// Whether the record of the second's term is another in the pool.
    fn is_rewritten(&self, term: usize) -> bool {
        self.second.terms[term] != self.pool.terms[self.number(term)]
    }

    /// Whether the first has the record of the second's term for another term.
    fn is_taken(&self, term: usize) -> bool {
        let record = self.second.terms[term];
        let same = self.first.terms.iter().position(|&other| other == record);
        same.is_some_and(|number| number != self.number(term))
    }

    /// Whether a byte of an atom's name would number a term that has another number in the pool.
    fn is_like_numbers(&self, term: usize) -> bool {
        let [_, name @ ..] = self.second.terms[term];
        name.into_iter()
            .any(|byte| usize::from(byte) < self.numbers.len() && self.is_renumbered(byte.into()))
    }

    /// The numbers in the second of the term's parts.
    fn parts(&self, term: usize) -> Vec<usize> {
        let [_, parts @ ..] = self.second.terms[term];
        let rule = self.kind(term).rule();
        parts[..rule.map_or(0, |rule| rule.operands())].iter().map(|&part| part.into()).collect()
    }

    fn has_parts(&self, term: usize, holds: impl Fn(usize) -> bool) -> bool {
        self.parts(term).into_iter().any(holds)
    }

    fn kind(&self, term: usize) -> Kind {
        kind(&self.second, term)
    }

    /// Whether the first's knowledge has the second's entry.
    fn is_known(&self, entry: usize) -> bool {
        self.first.knowledge.contains(&self.numbers[entry])
    }

    fn adds_knowledge(&self) -> bool {
        self.pool.knowledge.len() > self.first.knowledge.len()
    }

    fn adds_terms(&self) -> bool {
        self.pool.terms.len() > self.first.terms.len()
    }

    /// How many of the second's terms the first has.
    fn found(&self) -> usize {
        self.first.terms.len() + self.second.terms.len() - self.pool.terms.len()
    }

    fn is_same(&self) -> bool {
        self.first == self.second
    }
}

fn kind(bodies: &Bodies, term: usize) -> Kind {
    Kind::from_number(bodies.terms[term][0]).expect("check 3 leaves kinds")
}

/// A row of pools: its title, and whether it counts one.
type PoolRow = (&'static str, fn(&Pool) -> bool);

const POOLS: [PoolRow; 17] = [
    ("the two alike", |pool| pool.is_same()),
    ("none found", |pool| pool.found() == 0),
    ("one in four or fewer found", |pool| {
        pool.found() > 0 && 4 * pool.found() <= pool.second.terms.len()
    }),
    ("three in four or more found", |pool| {
        pool.adds_terms() && 4 * pool.found() >= 3 * pool.second.terms.len()
    }),
    ("all found", |pool| !pool.adds_terms() && !pool.is_same()),
    ("all found, K more", |pool| !pool.adds_terms() && pool.adds_knowledge()),
    ("T more, K not", |pool| pool.adds_terms() && !pool.adds_knowledge()),
    ("the second has all", |pool| pool.found() == pool.first.terms.len() && pool.adds_terms()),
    ("T = 1, first", |pool| pool.first.terms.len() == 1),
    ("T = 1, second", |pool| pool.second.terms.len() == 1),
    ("T = 250, first", |pool| is_full(&pool.first) && !pool.is_same()),
    ("T = 250, second", |pool| is_full(&pool.second) && !pool.is_same()),
    ("T = 250, pool", |pool| is_full(&pool.pool) && pool.adds_terms()),
    ("K = 0, first", |pool| pool.first.knowledge.is_empty() && pool.adds_knowledge()),
    ("K = 0, second", |pool| pool.second.knowledge.is_empty() && !pool.first.knowledge.is_empty()),
    ("K = 64, pool", |pool| is_full_of_entries(&pool.pool) && pool.adds_knowledge()),
    ("T = 250, K = 64", |pool| {
        is_full(&pool.pool) && is_full_of_entries(&pool.pool) && pool.adds_terms()
    }),
];

fn is_full(bodies: &Bodies) -> bool {
    bodies.terms.len() == Body::Terms.most()
}

fn is_full_of_entries(bodies: &Bodies) -> bool {
    bodies.knowledge.len() == Body::Knowledge.most()
}

/// A row of the second's terms: its title, for which kinds it has to be reached, and whether it counts one.
type TermRow = (&'static str, fn(Kind) -> bool, fn(&Pool, usize) -> bool);

const TERMS: [TermRow; 16] = [
    ("found, same number", any, |pool, term| pool.is_found(term) && !pool.is_renumbered(term)),
    ("found, other number", any, |pool, term| pool.is_found(term) && pool.is_renumbered(term)),
    ("found, other record", is_compound, |pool, term| {
        pool.is_found(term) && pool.is_rewritten(term)
    }),
    ("found, record taken", is_compound, |pool, term| pool.is_found(term) && pool.is_taken(term)),
    ("added, same number", any, |pool, term| !pool.is_found(term) && !pool.is_renumbered(term)),
    ("added, other number", any, |pool, term| !pool.is_found(term) && pool.is_renumbered(term)),
    ("added, other record", is_compound, |pool, term| {
        !pool.is_found(term) && pool.is_rewritten(term)
    }),
    ("added, record taken", is_compound, |pool, term| !pool.is_found(term) && pool.is_taken(term)),
    ("added over found", is_compound, |pool, term| {
        !pool.is_found(term)
            && pool.has_parts(term, |part| pool.is_found(part) && pool.is_renumbered(part))
    }),
    ("added over added", is_compound, |pool, term| {
        pool.has_parts(term, |part| !pool.is_found(part) && pool.is_renumbered(part))
    }),
    ("name like numbers", Kind::is_atom, |pool, term| {
        !pool.is_found(term) && pool.is_like_numbers(term)
    }),
    ("found by name", Kind::is_atom, |pool, term| {
        pool.is_found(term) && pool.is_like_numbers(term)
    }),
    ("0 is no part, found", is_hash, |pool, term| pool.is_found(term) && pool.is_renumbered(0)),
    ("0 is no part, added", is_hash, |pool, term| !pool.is_found(term) && pool.is_renumbered(0)),
    ("key found", is_key, |pool, term| pool.is_found(term) && is_renumbered_key(pool, term)),
    ("key added", is_key, |pool, term| !pool.is_found(term) && is_renumbered_key(pool, term)),
];

/// Whether the term has another number in the pool and is the key of a term that is added.
fn is_renumbered_key(pool: &Pool, key: usize) -> bool {
    let is_locked = |term: usize| {
        !pool.is_found(term) && !pool.kind(term).keys().is_empty() && pool.parts(term)[1] == key
    };
    pool.is_renumbered(key) && (0..pool.second.terms.len()).any(is_locked)
}

fn any(_: Kind) -> bool {
    true
}

fn is_compound(kind: Kind) -> bool {
    !kind.is_atom()
}

/// The kinds that have one part only.
fn is_hash(kind: Kind) -> bool {
    kind.rule().is_some_and(|rule| rule.operands() == 1)
}

fn is_key(kind: Kind) -> bool {
    Kind::locked_by(kind).is_some()
}

/// A row of the second's entries, by the kind of the message: its title, and whether it counts the term
/// with this number in the second.
type EntryRow = (&'static str, fn(&Pool, usize) -> bool);

const ENTRIES: [EntryRow; 6] = [
    ("entry, known, same", |pool, entry| pool.is_known(entry) && !pool.is_renumbered(entry)),
    ("entry, known, other", |pool, entry| pool.is_known(entry) && pool.is_renumbered(entry)),
    ("entry, found, same", |pool, entry| {
        !pool.is_known(entry) && pool.is_found(entry) && !pool.is_renumbered(entry)
    }),
    ("entry, found, other", |pool, entry| {
        !pool.is_known(entry) && pool.is_found(entry) && pool.is_renumbered(entry)
    }),
    ("entry, added", |pool, entry| !pool.is_found(entry)),
    ("entry, number taken", |pool, entry| {
        !pool.is_known(entry) && pool.first.knowledge.contains(&(entry as u8))
    }),
];

/// From which a term of the pool is deducible.
pub struct Given {
    /// From the first, and from the second.
    pub by: [bool; 2],
    pub by_pool: bool,
}

/// A row of the pool's terms, by what they are deducible from.
type GivenRow = (&'static str, fn(&Given) -> bool);

const GIVEN: [GivenRow; 5] = [
    ("given by the first", |given| given.by == [true, false]),
    ("given by the second", |given| given.by == [false, true]),
    ("given by both", |given| given.by == [true, true]),
    ("given by the pool", |given| given.by == [false, false] && given.by_pool),
    ("given by none", |given| !given.by_pool),
];

/// What check answers to the first and to the pool.
struct Verdicts<'a> {
    first: Checked<u8>,
    pool: Checked<u8>,
    pooled: &'a Pool<'a>,
}

impl Verdicts<'_> {
    fn is_refused(&self, reason: Reason) -> bool {
        self.pool.is_err_and(|refusal| refusal.reason == reason)
    }
}

/// A row of verdicts: its title, for which ways it has to be reached, and whether it counts these.
type WayRow = (&'static str, fn(Way) -> bool, fn(&Verdicts) -> bool);

const WAYS: [WayRow; 6] = [
    ("accepted, K more", any_way, |verdicts| {
        verdicts.first.is_ok() && verdicts.pool.is_ok() && verdicts.pooled.adds_knowledge()
    }),
    ("accepted, T more", any_way, |verdicts| {
        verdicts.first.is_ok() && verdicts.pool.is_ok() && verdicts.pooled.adds_terms()
    }),
    ("accepted, then 8", is_verifier, |verdicts| {
        verdicts.first.is_ok() && verdicts.is_refused(Reason::Reachable)
    }),
    ("refused, accepted", any_way, |verdicts| verdicts.first.is_err() && verdicts.pool.is_ok()),
    ("refused, then 8", is_verifier, |verdicts| {
        verdicts.first.is_err()
            && verdicts.first != verdicts.pool
            && verdicts.is_refused(Reason::Reachable)
    }),
    ("refused alike", any_way, |verdicts| {
        verdicts.first.is_err()
            && verdicts.first == verdicts.pool
            && verdicts.pooled.adds_knowledge()
    }),
];

fn any_way(_: Way) -> bool {
    true
}

fn is_verifier(way: Way) -> bool {
    matches!(way.claimed(), Claimed::Verifier(_))
}

/// What the call answered, with what there is of it: the length of the page and, where both pass checks 1
/// to 5, the counts of the pool.
struct Answer {
    page: usize,
    counts: Option<[usize; 2]>,
    expected: Checked<u16>,
}

impl Answer {
    fn is(&self, reason: Reason) -> bool {
        self.expected.is_err_and(|refusal| refusal.reason == reason)
    }

    /// Whether it is 20, for counts of which this holds.
    fn is_overfull(&self, holds: fn([usize; 2]) -> bool) -> bool {
        self.is(Reason::Overfull) && self.counts.is_some_and(holds)
    }

    /// Whether there is a pool, and the page has so many bytes for its length.
    fn has_room(&self, holds: fn(usize, usize) -> bool) -> bool {
        self.expected.is_ok_and(|length| holds(self.page, length.into()))
    }
}

/// A row of answers: its title, and whether it counts one.
type AnswerRow = (&'static str, fn(&Answer) -> bool);

const ANSWERS: [AnswerRow; 15] = [
    ("20, T alone", |answer| answer.is_overfull(|[terms, entries]| terms > T && entries <= K)),
    ("20, K alone", |answer| answer.is_overfull(|[terms, entries]| terms <= T && entries > K)),
    ("20, T and K", |answer| answer.is_overfull(|[terms, entries]| terms > T && entries > K)),
    ("20, T = 251", |answer| answer.is_overfull(|[terms, entries]| terms == T + 1 && entries <= K)),
    ("20, K = 65", |answer| answer.is_overfull(|[terms, entries]| terms <= T && entries == K + 1)),
    ("20, T over 255", |answer| {
        answer.is_overfull(|[terms, entries]| terms > u8::MAX.into() && entries <= K)
    }),
    ("20, empty page", |answer| answer.is(Reason::Overfull) && answer.page == 0),
    ("20, longest page", |answer| answer.is(Reason::Overfull) && answer.page >= LONGEST_SUBMISSION),
    ("11, empty page", |answer| answer.is(Reason::Page) && answer.page == 0),
    ("11, a byte short", |answer| {
        answer.expected.is_err_and(|refusal| {
            refusal.reason == Reason::Page && refusal.place == answer.page + 1
        })
    }),
    ("11, T = 250", |answer| {
        answer.is(Reason::Page) && answer.counts.is_some_and(|[terms, _]| terms == T)
    }),
    ("11, K = 64", |answer| {
        answer.is(Reason::Page) && answer.counts.is_some_and(|[_, entries]| entries == K)
    }),
    ("exact page", |answer| answer.has_room(|page, length| page == length)),
    ("longer page", |answer| answer.has_room(|page, length| page > length)),
    ("page over 65,535", |answer| answer.has_room(|page, _| page > u16::MAX.into())),
];

/// The most terms and entries.
const T: usize = Body::Terms.most();
const K: usize = Body::Knowledge.most();

/// Which of the two is refused.
#[derive(Clone, Copy, PartialEq, Eq)]
enum Side {
    First,
    /// The first, and the second would be so for another reason.
    FirstOfBoth,
    Second,
}

/// A row of refusals of one of the two: its title, and whether it counts one on a page of this length.
type RefusedRow = (&'static str, fn(Side, usize) -> bool);

const REFUSED: [RefusedRow; 4] = [
    ("refused, first", |side, _| side == Side::First),
    ("refused, first of 2", |side, _| side == Side::FirstOfBoth),
    ("refused, second", |side, _| side == Side::Second),
    ("refused, empty page", |_, page| page == 0),
];

/// The refusals of one submission, and a count at each of the places.
const CHECKS: [(Reason, Option<Body>); 8] = [
    (Reason::Contents, None),
    (Reason::Count, Some(Body::Terms)),
    (Reason::Count, Some(Body::Knowledge)),
    (Reason::Count, Some(Body::Derivation)),
    (Reason::Count, Some(Body::Claim)),
    (Reason::Term, None),
    (Reason::Knowledge, None),
    (Reason::Claim, None),
];

fn check_title((reason, body): (Reason, Option<Body>)) -> String {
    match body {
        Some(body) => format!("{} {}", reason.number(), body as usize),
        None => reason.number().to_string(),
    }
}

fn is_check((reason, body): (Reason, Option<Body>), refusal: Refusal) -> bool {
    refusal.reason == reason && body.is_none_or(|body| refusal.place == body as usize)
}

type ByKind = [u64; Kind::ALL.len()];

/// Counts by kind, with their title and for which kinds they have to be reached.
type Counts<'a> = (&'static str, fn(Kind) -> bool, &'a ByKind);

#[derive(Default)]
pub struct Pools {
    refused: [[u64; CHECKS.len()]; REFUSED.len()],
    answers: [u64; ANSWERS.len()],
    pools: [u64; POOLS.len()],
    terms: [ByKind; TERMS.len()],
    entries: [ByKind; ENTRIES.len()],
    given: [ByKind; GIVEN.len()],
    ways: [[u64; Way::ALL.len()]; WAYS.len()],
}

impl Pools {
    pub fn count_answer(
        &mut self,
        pair: &Pair,
        counts: Option<[usize; 2]>,
        expected: Checked<u16>,
    ) {
        let answer = Answer { page: pair.page.len(), counts, expected };
        for (count, (_, holds)) in self.answers.iter_mut().zip(ANSWERS) {
            *count += u64::from(holds(&answer));
        }
        if let (None, Err(refusal)) = (counts, expected) {
            self.count_refused(pair, refusal);
        }
    }

    /// Counts a refusal of one of the two.
    fn count_refused(&mut self, pair: &Pair, refusal: Refusal) {
        let [first, second] =
            [&pair.first, &pair.second].map(|submission| reference::guess(submission).err());
        let side = match (first, second) {
            (None, _) => Side::Second,
            (Some(first), Some(second)) if first != second => Side::FirstOfBoth,
            _ => Side::First,
        };
        for (counts, (_, holds)) in self.refused.iter_mut().zip(REFUSED) {
            for (count, check) in counts.iter_mut().zip(CHECKS) {
                *count += u64::from(holds(side, pair.page.len()) && is_check(check, refusal));
            }
        }
    }

    pub fn count_pool(&mut self, pool: &Pool) {
        for (count, (_, holds)) in self.pools.iter_mut().zip(POOLS) {
            *count += u64::from(holds(pool));
        }
        for term in 0..pool.second.terms.len() {
            let kind = pool.kind(term);
            for (counts, (_, is_reached, holds)) in self.terms.iter_mut().zip(TERMS) {
                counts[kind as usize] += u64::from(is_reached(kind) && holds(pool, term));
            }
        }
        for &entry in &pool.second.knowledge {
            let entry = usize::from(entry);
            for (counts, (_, holds)) in self.entries.iter_mut().zip(ENTRIES) {
                counts[pool.kind(entry) as usize] += u64::from(holds(pool, entry));
            }
        }
    }

    /// Counts the pool's term with this number, by what it is deducible from.
    pub fn count_given(&mut self, pool: &Pool, term: usize, given: &Given) {
        for (counts, (_, holds)) in self.given.iter_mut().zip(GIVEN) {
            counts[kind(&pool.pool, term) as usize] += u64::from(holds(given));
        }
    }

    pub fn count_verdicts(
        &mut self,
        way: Way,
        first: Checked<u8>,
        pool: Checked<u8>,
        pooled: &Pool,
    ) {
        let verdicts = Verdicts { first, pool, pooled };
        for (counts, (_, _, holds)) in self.ways.iter_mut().zip(WAYS) {
            counts[way as usize] += u64::from(holds(&verdicts));
        }
    }

    pub fn print(&self) {
        println!("{}", cells("join", CHECKS, check_title));
        for (counts, (title, _)) in self.refused.iter().zip(REFUSED) {
            println!("{}", cells(title, counts, |count| count));
        }
        println!();
        for (title, count) in self.single() {
            println!("{}", cells(title, [count], |count| count));
        }
        println!("\n{}", cells("join, term", Kind::ALL, Kind::word));
        for (title, _, counts) in self.by_kind() {
            println!("{}", cells(title, Kind::ALL, |kind| counts[kind as usize]));
        }
        println!("\n{}", cells("join, first", Way::ALL, way_title));
        for (counts, (title, ..)) in self.ways.iter().zip(WAYS) {
            println!("{}", cells(title, counts, |count| count));
        }
    }

    /// The counts that are by nothing.
    fn single(&self) -> Vec<(&'static str, u64)> {
        let answers = self.answers.iter().zip(ANSWERS).map(|(&count, (title, _))| (title, count));
        let pools = self.pools.iter().zip(POOLS).map(|(&count, (title, _))| (title, count));
        answers.chain(pools).collect()
    }

    fn by_kind(&self) -> Vec<Counts<'_>> {
        let terms = self.terms.iter().zip(TERMS);
        let terms = terms.map(|(counts, (title, is_reached, _))| (title, is_reached, counts));
        let entries = self.entries.iter().zip(ENTRIES);
        let entries = entries.map(|(counts, (title, _))| (title, any as fn(Kind) -> bool, counts));
        let given = self.given.iter().zip(GIVEN);
        let given = given.map(|(counts, (title, _))| (title, any as fn(Kind) -> bool, counts));
        terms.chain(entries).chain(given).collect()
    }

    /// What should have been reached and was not.
    pub fn missing(&self) -> Vec<String> {
        let mut missing = Vec::new();
        for (counts, (title, _)) in self.refused.iter().zip(REFUSED) {
            let never = CHECKS.into_iter().zip(counts).filter(|(_, &count)| count == 0);
            missing.extend(never.map(|(check, _)| format!("{title}: {}", check_title(check))));
        }
        let never = self.single().into_iter().filter(|(_, count)| *count == 0);
        missing.extend(never.map(|(title, _)| title.to_string()));
        for (title, is_reached, counts) in self.by_kind() {
            let kinds = Kind::ALL.into_iter().filter(|&kind| is_reached(kind));
            let never = kinds.filter(|&kind| counts[kind as usize] == 0);
            missing.extend(never.map(|kind| format!("{title}: {}", kind.word())));
        }
        for (counts, (title, is_reached, _)) in self.ways.iter().zip(WAYS) {
            let ways = Way::ALL.into_iter().filter(|&way| is_reached(way));
            let never = ways.filter(|&way| counts[way as usize] == 0);
            missing.extend(never.map(|way| format!("{title}: {}", way_title(way))));
        }
        missing.into_iter().map(|row| format!("{} {row}", Call::Join.word())).collect()
    }
}
