//! The reference's answers on what is deducible, against the definition read word by word: every
//! step from the knowledge, over all terms up to a size, listed or not.

use std::collections::HashSet;

use checker_tests::bodies::Bodies;
use checker_tests::generate::Source;
use checker_tests::reference::{deducible, needed_keys};
use checker_tests::tables::{Kind, Opener, Rule};

/// The largest terms that are built, by the number of atoms and compounds in them.
const LARGEST: usize = 6;

#[derive(Clone, PartialEq, Eq, Hash)]
enum Term {
    Atom(Kind, [u8; 2]),
    Compound(Kind, Vec<Term>),
}

impl Term {
    fn size(&self) -> usize {
        match self {
            Term::Atom(..) => 1,
            Term::Compound(_, operands) => 1 + operands.iter().map(Term::size).sum::<usize>(),
        }
    }

    fn kind(&self) -> Kind {
        match *self {
            Term::Atom(kind, _) | Term::Compound(kind, _) => kind,
        }
    }

    fn inverse(&self) -> Option<Term> {
        match *self {
            Term::Atom(kind, name) => Some(Term::Atom(kind.inverse()?, name)),
            Term::Compound(..) => None,
        }
    }
}

fn listed(bodies: &Bodies) -> Vec<Term> {
    let mut terms: Vec<Term> = Vec::new();
    for &[kind, x, y] in &bodies.terms {
        let kind = Kind::from_number(kind).expect("check 3 leaves kinds");
        let part = |&number: &u8| terms[usize::from(number)].clone();
        terms.push(match kind.rule() {
            None => Term::Atom(kind, [x, y]),
            Some(rule) => {
                Term::Compound(kind, [x, y][..rule.operands()].iter().map(part).collect())
            }
        });
    }
    terms
}

/// Everything that steps reach from the knowledge without a term above the size.
fn reached(knowledge: impl Iterator<Item = Term>) -> HashSet<Term> {
    let mut known: HashSet<Term> = knowledge.collect();
    loop {
        let mut more: HashSet<Term> = known.iter().flat_map(|term| taken(term, &known)).collect();
        let sized: Vec<(&Term, usize)> = known.iter().map(|term| (term, term.size())).collect();
        for &(x, size) in sized.iter().filter(|(_, size)| *size < LARGEST) {
            more.extend(built(&[x]));
            let beside = sized.iter().filter(|(_, other)| size + other < LARGEST);
            more.extend(beside.flat_map(|(y, _)| built(&[x, y])));
        }
        let before = known.len();
        known.extend(more);
        if known.len() == before {
            return known;
        }
    }
}

/// What the rules take out of the term with what is known.
fn taken(term: &Term, known: &HashSet<Term>) -> Vec<Term> {
    let Term::Compound(kind, operands) = term else {
        return vec![];
    };
    let mut parts = Vec::new();
    for (_, taking) in Rule::takings().filter(|(_, taking)| kind.rule() == Some(taking.from)) {
        let opens = match taking.opener {
            Opener::Nothing => true,
            Opener::Key => known.contains(&operands[1]),
            Opener::InverseKey => operands[1].inverse().is_some_and(|key| known.contains(&key)),
        };
        if opens {
            parts.push(operands[taking.part].clone());
        }
    }
    parts
}

/// What the rules build from these terms.
fn built(operands: &[&Term]) -> Vec<Term> {
    let mut terms = Vec::new();
    for (kind, rule) in Kind::compounds() {
        let fits = rule.operands() == operands.len()
            && (kind.keys().is_empty() || kind.keys().contains(&operands[1].kind()));
        if fits {
            terms.push(Term::Compound(kind, operands.iter().map(|&term| term.clone()).collect()));
        }
    }
    terms
}

/// The bodies and terms of a submission that passes checks 1 to 4 and has few and small terms.
fn small(submission: &[u8]) -> Option<(Bodies, Vec<Term>)> {
    deducible(submission, 0).ok()?;
    let bodies = Bodies::read(submission).ok().filter(|bodies| bodies.terms.len() <= 12)?;
    let terms = listed(&bodies);
    terms.iter().all(|term| term.size() <= LARGEST).then_some((bodies, terms))
}

/// So many of them, and until so many terms were deducible by a key that is a hash.
#[test]
fn small_submissions_agree_with_the_definition() {
    let mut source = Source::new(11);
    let (mut tried, mut by_hash) = (0, 0);
    while tried < 1000 || by_hash < 20 {
        let submission = source.next_input().submission;
        let Some((bodies, terms)) = small(&submission) else {
            continue;
        };
        let known = bodies.knowledge.iter().map(|&number| terms[usize::from(number)].clone());
        let reached = reached(known);
        for (number, term) in terms.iter().enumerate() {
            let expected = Ok(reached.contains(term));
            assert_eq!(deducible(&submission, number as u8), expected, "{number} of {bodies:?}");
            let needed = needed_keys(&submission, number as u8).expect("the term is listed");
            by_hash += usize::from(expected == Ok(true) && needed.contains(&Kind::Hash));
        }
        tried += 1;
        assert!(tried < 10_000, "{by_hash} terms depend on a hash as a key");
    }
}
