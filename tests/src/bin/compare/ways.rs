//! Counts of checks by the way of the claim: what gives the term claimed, where a premise that is the
//! guess is taken from, and for what the claim is refused.

use checker_tests::bodies::Bodies;
use checker_tests::generate::{premises, Table};
use checker_tests::reference::{Checked, Refusal};
use checker_tests::tables::{program_length, Claimed, Deducible, Kind, Reason, Way, IN_KNOWLEDGE};

use crate::tally::cells;

/// A row: its title, in which ways it is counted and has to be reached, and whether it counts a check.
type Row = (&'static str, fn(Way) -> bool, fn(&Case) -> bool);

const ROWS: [Row; 25] = [
    ("accepted, step", any, |case| case.is_accepted() && !case.by_entry()),
    ("accepted, 255", says_deducible, |case| case.is_accepted() && case.by_entry()),
    ("accepted, N = 0", says_deducible, |case| case.is_accepted() && case.steps() == 0),
    ("step behind step", says_deducible, |case| case.is_behind_step()),
    ("step behind entry", says_deducible, |case| case.is_behind_entry()),
    ("guess from step", says_deducible, |case| case.uses_guess() && !case.knows(case.guess())),
    ("guess from entry", says_deducible, |case| case.uses_guess() && case.knows(case.guess())),
    ("5, guess no key", of_key, |case| case.is_refused_for([false, true, true])),
    ("5, step 255", no_entry, |case| case.has_bad_step() && case.step() == IN_KNOWLEDGE),
    ("5, step 254", any, |case| case.has_bad_step() && case.step() == IN_KNOWLEDGE - 1),
    ("5, step below 254", any, |case| case.has_bad_step() && case.step() < IN_KNOWLEDGE - 1),
    ("5, companion", any, |case| case.is_refused_for([true, true, false])),
    ("6 before 16", says_deducible, |case| case.is(Reason::Step) && !case.gives(case.claimed)),
    ("7 before 16", says_deducible, |case| case.is(Reason::Unfounded) && !case.gives(case.claimed)),
    ("7, guess missing", says_deducible, |case| case.lacks_guess()),
    ("16, step", says_deducible, |case| case.is_not_shown() && !case.by_entry()),
    ("16, step, other", says_deducible, |case| case.gives_other() && !case.by_entry()),
    ("16, step, by step", says_deducible, |case| case.is_shown_by_step() && !case.by_entry()),
    ("16, step, by entry", says_deducible, |case| case.is_shown_by_entry()),
    ("16, 255", says_deducible, |case| case.is_not_shown() && case.by_entry()),
    ("16, 255, other", says_deducible, |case| case.gives_other() && case.by_entry()),
    ("16, 255, by step", says_deducible, |case| case.is_shown_by_step() && case.by_entry()),
    ("16, not listed", of_key, |case| case.is_not_shown() && case.claimed.is_none()),
    ("16, short page", says_deducible, |case| case.is_not_shown() && case.is_short()),
    ("11", any, |case| case.is(Reason::Page)),
];

fn any(_: Way) -> bool {
    true
}

fn says_deducible(way: Way) -> bool {
    matches!(way.claimed(), Claimed::Deducible(_))
}

fn no_entry(way: Way) -> bool {
    !way.may_be_entry()
}

/// Whether the guess has to be a key.
fn of_key(way: Way) -> bool {
    way.guesses().iter().all(|kind| kind.inverse().is_some())
}

/// A check of bodies that pass checks 1 to 4.
struct Case<'a> {
    bodies: &'a Bodies,
    way: Way,
    /// The length of the page.
    page: usize,
    answer: Checked<u8>,
    /// The term that is claimed to be deducible, if it is listed, and the other one of the guess and
    /// its inverse.
    claimed: Option<u8>,
    other: Option<u8>,
}

impl Case<'_> {
    fn new<'a>(bodies: &'a Bodies, way: Way, page: usize, answer: Checked<u8>) -> Case<'a> {
        let [guess, ..] = bodies.claim;
        let table = Table::of(&bodies.terms);
        let other = match way.claimed() {
            Claimed::Verifier(_) => None,
            Claimed::Deducible(Deducible::Guess) => table.inverse(guess),
            Claimed::Deducible(Deducible::Inverse) => Some(guess),
        };
        Case { bodies, way, page, answer, claimed: table.claimed(guess, way), other }
    }

    fn guess(&self) -> u8 {
        self.bodies.claim[0]
    }

    fn step(&self) -> u8 {
        self.bodies.claim[1]
    }

    fn steps(&self) -> usize {
        self.bodies.derivation.len()
    }

    fn by_entry(&self) -> bool {
        self.step() == IN_KNOWLEDGE
    }

    fn knows(&self, term: u8) -> bool {
        self.bodies.knowledge.contains(&term)
    }

    /// Whether one of the first so many steps concludes the term.
    fn is_concluded(&self, steps: usize, term: u8) -> bool {
        self.bodies.derivation[..steps].iter().any(|step| step[3] == term)
    }

    /// Whether the named step concludes the term, or the knowledge has it.
    fn gives(&self, term: Option<u8>) -> bool {
        term.is_some_and(|term| match self.bodies.derivation.get(usize::from(self.step())) {
            Some(step) => step[3] == term,
            None => self.knows(term),
        })
    }

    fn is_accepted(&self) -> bool {
        self.answer.is_ok()
    }

    fn is(&self, refusal: Reason) -> bool {
        self.answer.is_err_and(|Refusal { reason, .. }| reason == refusal)
    }

    /// Whether it is accepted by a step, and the term stands in the register of an earlier one.
    fn is_behind_step(&self) -> bool {
        let is_earlier = |term| self.is_concluded(self.step().into(), term);
        self.is_accepted() && !self.by_entry() && self.claimed.is_some_and(is_earlier)
    }

    /// The same, with the register of an entry.
    fn is_behind_entry(&self) -> bool {
        let is_known = self.claimed.is_some_and(|term| self.knows(term));
        self.is_accepted() && !self.by_entry() && is_known
    }

    /// Whether it is accepted, and the guess is a premise.
    fn uses_guess(&self) -> bool {
        self.is_accepted()
            && self.bodies.derivation.iter().any(|step| premises(step).contains(&self.guess()))
    }

    /// Whether it is refused with 5, and guess, step and companion are within their ranges or not.
    fn is_refused_for(&self, within: [bool; 3]) -> bool {
        let [guess, step, _, companion] = self.bodies.claim;
        let kind = self
            .bodies
            .terms
            .get(usize::from(guess))
            .and_then(|[kind, ..]| Kind::from_number(*kind));
        let companions = self.way.companion().values(self.steps(), self.bodies.terms.len());
        let is_within = [
            kind.is_some_and(|kind| self.way.guesses().contains(&kind)),
            usize::from(step) < self.steps() || self.by_entry() && self.way.may_be_entry(),
            usize::from(companion) < companions,
        ];
        self.is(Reason::Claim) && kind.is_some_and(Kind::is_atom) && is_within == within
    }

    fn has_bad_step(&self) -> bool {
        self.is_refused_for([true, false, true])
    }

    /// Whether the guess, and nothing else, is missing where a step is unfounded.
    fn lacks_guess(&self) -> bool {
        let Err(Refusal { reason: Reason::Unfounded, place }) = self.answer else {
            return false;
        };
        let is_known = |term| self.knows(term) || self.is_concluded(place, term);
        let is_known_or_guess = |&term: &u8| is_known(term) || term == self.guess();
        premises(&self.bodies.derivation[place]).iter().all(is_known_or_guess)
    }

    fn is_not_shown(&self) -> bool {
        self.is(Reason::NotShown)
    }

    /// Whether it is refused with 16, and what is given is the other one of the guess and its inverse.
    fn gives_other(&self) -> bool {
        self.is_not_shown() && self.gives(self.other)
    }

    /// Whether it is refused with 16, and a step that it doesn't name concludes the term claimed.
    fn is_shown_by_step(&self) -> bool {
        let is_concluded = |term| self.is_concluded(self.steps(), term);
        self.is_not_shown() && self.claimed.is_some_and(is_concluded)
    }

    /// The same, with an entry of the knowledge.
    fn is_shown_by_entry(&self) -> bool {
        self.is_not_shown() && self.claimed.is_some_and(|term| self.knows(term))
    }

    fn is_short(&self) -> bool {
        self.page < program_length(self.steps())
    }
}

#[derive(Default)]
pub struct Ways([[u64; Way::ALL.len()]; ROWS.len()]);

impl Ways {
    /// Counts the check of these bodies, with a page of this length.
    pub fn count(&mut self, bodies: &Bodies, page: usize, answer: Checked<u8>) {
        let is_earlier = |Refusal { reason, .. }: Refusal| reason.number() < Reason::Claim.number();
        let Some(way) = Way::from_letter(bodies.claim[2]) else { return };
        if answer.is_err_and(is_earlier) {
            return;
        }
        let case = Case::new(bodies, way, page, answer);
        for (counts, (_, is_counted, holds)) in self.0.iter_mut().zip(ROWS) {
            counts[way as usize] += u64::from(is_counted(way) && holds(&case));
        }
    }

    pub fn print(&self) {
        println!("{}", cells("claim, way", Way::ALL, |way| char::from(way.letter())));
        for (counts, (title, ..)) in self.0.iter().zip(ROWS) {
            println!("{}", cells(title, Way::ALL, |way| counts[way as usize]));
        }
    }

    /// What should have been reached and was not.
    pub fn missing(&self) -> Vec<String> {
        let mut missing = Vec::new();
        for (counts, (title, is_counted, _)) in self.0.iter().zip(ROWS) {
            let never =
                Way::ALL.into_iter().filter(|&way| is_counted(way) && counts[way as usize] == 0);
            missing.extend(never.map(|way| format!("{title}: way {}", char::from(way.letter()))));
        }
        missing
    }
}
