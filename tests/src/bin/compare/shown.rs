//! Counts of deductions: by the page and the answer, by rule, by the key of what is opened, and by the
//! kind of the term.

use checker_tests::bodies::Bodies;
use checker_tests::generate::premises;
use checker_tests::reference::{Checked, Refusal};
use checker_tests::tables::{Body, Call, Kind, Reason, Rule, Way, SHORTEST_SHEET};

use crate::answers::Claimed;
use crate::tally::cells;

/// A row of pages: its title, whether it has a page of this length, and with which answers it has to be
/// reached.
type PageRow = (&'static str, fn(usize) -> bool, fn(Answer) -> bool);

const PAGES: [PageRow; 5] = [
    ("page, empty", |page| page == 0, |answer| !answer.is_given()),
    ("page, a byte short", |page| page + 1 == SHORTEST_SHEET, |answer| !answer.is_given()),
    ("page, exact", |page| page == SHORTEST_SHEET, |answer| !answer.is_for_page()),
    ("page, longer", |page| page > SHORTEST_SHEET, |answer| !answer.is_for_page()),
    ("page, over 65,535", |page| page > u16::MAX.into(), Answer::is_given),
];

/// What the call may answer: it refuses, or says no or yes.
#[derive(Clone, Copy, PartialEq, Eq)]
enum Answer {
    Refused(Reason),
    No,
    Yes,
}

impl Answer {
    fn all() -> Vec<Answer> {
        let refused = Call::Deduction.refusals().iter().map(|&reason| Answer::Refused(reason));
        refused.chain([Answer::No, Answer::Yes]).collect()
    }

    fn of(answer: Checked<bool>) -> Answer {
        match answer {
            Err(Refusal { reason, .. }) => Answer::Refused(reason),
            Ok(false) => Answer::No,
            Ok(true) => Answer::Yes,
        }
    }

    /// Its position among all of them.
    fn place(self) -> usize {
        let refusals = Call::Deduction.refusals();
        match self {
            Answer::Refused(reason) => {
                let place = refusals.iter().position(|&other| other == reason);
                place.expect("a refusal of the call")
            }
            Answer::No => refusals.len(),
            Answer::Yes => refusals.len() + 1,
        }
    }

    fn word(self) -> String {
        match self {
            Answer::Refused(reason) => reason.number().to_string(),
            Answer::No => "no".to_string(),
            Answer::Yes => "yes".to_string(),
        }
    }

    /// Whether it is yes or no.
    fn is_given(self) -> bool {
        matches!(self, Answer::No | Answer::Yes)
    }

    fn is_for_page(self) -> bool {
        self == Answer::Refused(Reason::ShortSheet)
    }
}

/// A row of steps: its title, and whether it counts the step with this number.
type StepRow = (&'static str, fn(&Shown, usize) -> bool);

const STEPS: [StepRow; 3] = [
    ("step", |_, _| true),
    ("last of more steps", |shown, number| number > 0 && number + 1 == shown.steps.len()),
    ("the only step", |shown, _| shown.steps.len() == 1),
];

/// A row of deductions that open something with a key: its title, for which kinds of key it has to be
/// reached, where the key, or its inverse, by which a step opens comes from, and how many such steps there
/// are at least.
type KeyRow = (&'static str, fn(Kind) -> bool, Origin, usize);

const KEYS: [KeyRow; 5] = [
    ("opened, key known", any, Origin::Knowledge, 1),
    ("opened, key taken", any, Origin::Taken, 1),
    ("opened, key built", |kind| !kind.is_atom(), Origin::Built, 1),
    ("chain, keys taken", any, Origin::Taken, CHAIN),
    ("chain, keys built", |kind| !kind.is_atom(), Origin::Built, CHAIN),
];

/// How many steps make a chain.
const CHAIN: usize = 10;

/// Where a premise comes from.
#[derive(Clone, Copy, PartialEq, Eq)]
enum Origin {
    Knowledge,
    Taken,
    Built,
}

/// A row of terms: its title, for which kinds it has to be reached, and whether it counts a deduction.
type TermRow = (&'static str, fn(Kind) -> bool, fn(&Shown) -> bool);

const TERMS: [TermRow; 16] = [
    ("yes, no step", any, |shown| shown.steps.is_empty()),
    ("yes, 1 step", any, |shown| shown.steps.len() == 1),
    ("yes, 2 to 128 steps", any, |shown| shown.steps.len() > 1 && !shown.is_long()),
    ("yes, 129 and more", any, |shown| shown.is_long()),
    ("yes, 249 steps", any, |shown| shown.steps.len() + 1 == Body::Terms.most()),
    ("all that is unknown", any, |shown| shown.bodies.knowledge.len() > 1 && shown.concludes_all()),
    (
        "equal parts",
        |kind| kind.is_atom() || kind == Kind::Pair,
        |shown| shown.doublings() >= CHAIN,
    ),
    ("known, other steps", any, |shown| shown.steps.is_empty() && shown.ways > 0),
    ("several last steps", any, |shown| !shown.steps.is_empty() && shown.ways > 1),
    ("the guess, known", Kind::is_atom, |shown| shown.is_guess() && shown.steps.is_empty()),
    ("the guess, by steps", Kind::is_atom, |shown| shown.is_guess() && !shown.steps.is_empty()),
    ("more is reached", any, |shown| shown.takes() < shown.taken),
    ("more, from 2 steps", any, |shown| shown.steps.len() > 1 && shown.takes() < shown.taken),
    (
        "takes and builds",
        |kind| !kind.is_atom(),
        |shown| shown.takes() > 0 && shown.takes() < shown.steps.len(),
    ),
    ("guess from step", any, |shown| shown.uses_guess() && !shown.knows_guess()),
    ("guess from entry", any, |shown| shown.uses_guess() && shown.knows_guess()),
];

fn any(_: Kind) -> bool {
    true
}

fn has_inverse(kind: Kind) -> bool {
    kind.inverse().is_some()
}

/// A row of noes: its title, for which kinds of term it has to be reached, and whether it counts a no.
type NoRow = (&'static str, fn(Kind) -> bool, fn(&Unknown) -> bool);

const NOES: [NoRow; 3] = [
    ("no", any, |_| true),
    ("no, with guess yes", any, |unknown| unknown.is_with_guess && !unknown.is_guess),
    ("no, the guess", Kind::is_atom, |unknown| unknown.is_guess),
];

/// A term that is not deducible: whether it would be if the guess were known, and whether it is the guess.
struct Unknown {
    is_with_guess: bool,
    is_guess: bool,
}

/// A row of deductions that were checked again as derivations: its title, for which kinds of term it has
/// to be reached, and whether it counts such a claim of so many steps.
type AgainRow = (&'static str, fn(Kind) -> bool, fn(&Claimed, usize) -> bool);

const AGAIN: [AgainRow; 7] = [
    ("again, way k", Kind::is_atom, |claimed, steps| {
        is_true(claimed, Way::DeducibleGuess) && steps > 0
    }),
    ("again, way j", has_inverse, |claimed, steps| {
        is_true(claimed, Way::DeducibleInverse) && steps > 0
    }),
    ("again, k, no step", Kind::is_atom, |claimed, steps| {
        is_true(claimed, Way::DeducibleGuess) && steps == 0
    }),
    ("again, j, no step", has_inverse, |claimed, steps| {
        is_true(claimed, Way::DeducibleInverse) && steps == 0
    }),
    ("again, 10 and more", Kind::is_atom, |claimed, steps| claimed.is_true && steps >= 10),
    ("again, 128 steps", any, |_, steps| steps == Body::Derivation.most()),
    ("again, 16", |kind| !kind.is_atom(), |claimed, _| !claimed.is_true),
];

fn is_true(claimed: &Claimed, way: Way) -> bool {
    claimed.is_true && claimed.way == way
}

/// A deduction that was given.
pub struct Shown<'a> {
    pub bodies: &'a Bodies,
    pub term: u8,
    pub steps: &'a [[u8; 4]],
    /// How many terms taking apart reaches that are not in the knowledge.
    pub taken: usize,
    /// How many steps over listed terms conclude the term from what is deducible.
    pub ways: usize,
}

impl Shown<'_> {
    fn is_long(&self) -> bool {
        self.steps.len() > Body::Derivation.most()
    }

    /// How many steps take something apart.
    fn takes(&self) -> usize {
        self.steps.iter().filter(|step| !rule(step).builds()).count()
    }

    /// Whether the steps conclude every term that is not in the knowledge.
    fn concludes_all(&self) -> bool {
        self.steps.len() + self.bodies.knowledge.len() == self.bodies.terms.len()
    }

    /// How many steps build a pair of equal parts, or take it apart.
    fn doublings(&self) -> usize {
        let pairs = self.steps.iter().filter_map(|step| match rule(step) {
            Rule::Pair => Some(step[3]),
            Rule::Fst | Rule::Snd => Some(step[1]),
            _ => None,
        });
        let terms = &self.bodies.terms;
        pairs.filter(|&pair| matches!(terms[usize::from(pair)], [_, x, y] if x == y)).count()
    }

    fn guess(&self) -> u8 {
        self.bodies.claim[0]
    }

    fn is_guess(&self) -> bool {
        self.term == self.guess()
    }

    fn knows_guess(&self) -> bool {
        self.bodies.knowledge.contains(&self.guess())
    }

    fn uses_guess(&self) -> bool {
        self.steps.iter().any(|step| premises(step).contains(&self.guess()))
    }

    fn origin(&self, premise: u8) -> Origin {
        match self.steps.iter().find(|[.., conclusion]| *conclusion == premise) {
            None => Origin::Knowledge,
            Some(step) if rule(step).builds() => Origin::Built,
            Some(_) => Origin::Taken,
        }
    }

    /// The kind of the key of what the step opens, and where its second premise comes from.
    fn opened(&self, step: &[u8; 4]) -> Option<(Kind, Origin)> {
        let &[_, whole, opener, _] = step;
        if rule(step).builds() || rule(step).operands() == 1 {
            return None;
        }
        let [.., key] = self.bodies.terms[usize::from(whole)];
        Some((kind(self.bodies, key), self.origin(opener)))
    }
}

fn rule([number, ..]: &[u8; 4]) -> Rule {
    Rule::from_number(*number).expect("a step with a rule")
}

fn kind(bodies: &Bodies, term: u8) -> Kind {
    let [number, ..] = bodies.terms[usize::from(term)];
    Kind::from_number(number).expect("check 3 leaves kinds")
}

type ByKind = [u64; Kind::ALL.len()];

/// Counts by the kind of the term, with their title and for which kinds they have to be reached.
type Counts<'a> = (&'static str, fn(Kind) -> bool, &'a ByKind);

pub struct Deductions {
    pages: Vec<Vec<u64>>,
    steps: [[u64; Rule::ALL.len()]; STEPS.len()],
    keys: [ByKind; KEYS.len()],
    terms: [ByKind; TERMS.len()],
    noes: [ByKind; NOES.len()],
    again: [ByKind; AGAIN.len()],
}

impl Default for Deductions {
    fn default() -> Deductions {
        Deductions {
            pages: vec![vec![0; Answer::all().len()]; PAGES.len()],
            steps: Default::default(),
            keys: Default::default(),
            terms: Default::default(),
            noes: Default::default(),
            again: Default::default(),
        }
    }
}

impl Deductions {
    /// Counts an answer on a page of this length.
    pub fn count_page(&mut self, page: usize, answer: Checked<bool>) {
        let place = Answer::of(answer).place();
        for (counts, (_, has_length, _)) in self.pages.iter_mut().zip(PAGES) {
            counts[place] += u64::from(has_length(page));
        }
    }

    /// Counts a no; the term would be deducible with the guess, or it wouldn't.
    pub fn count_no(&mut self, bodies: &Bodies, term: u8, is_with_guess: bool) {
        let unknown = Unknown { is_with_guess, is_guess: term == bodies.claim[0] };
        for (counts, (_, _, holds)) in self.noes.iter_mut().zip(NOES) {
            counts[kind(bodies, term) as usize] += u64::from(holds(&unknown));
        }
    }

    /// Counts a yes.
    pub fn count_yes(&mut self, shown: &Shown) {
        for (counts, (_, _, holds)) in self.terms.iter_mut().zip(TERMS) {
            counts[kind(shown.bodies, shown.term) as usize] += u64::from(holds(shown));
        }
        for (number, step) in shown.steps.iter().enumerate() {
            for (counts, (_, holds)) in self.steps.iter_mut().zip(STEPS) {
                counts[rule(step) as usize] += u64::from(holds(shown, number));
            }
        }
        let opened: Vec<_> = shown.steps.iter().filter_map(|step| shown.opened(step)).collect();
        for (counts, (_, _, origin, least)) in self.keys.iter_mut().zip(KEYS) {
            for key in Kind::locking() {
                let steps = opened.iter().filter(|&&other| other == (key, origin)).count();
                counts[key as usize] += u64::from(steps >= least);
            }
        }
    }

    /// Counts what so many steps to a term were claimed to be.
    pub fn count_again(
        &mut self,
        bodies: &Bodies,
        term: u8,
        steps: usize,
        again: &[(Claimed, u32)],
    ) {
        for (claimed, _) in again {
            for (counts, (_, _, holds)) in self.again.iter_mut().zip(AGAIN) {
                counts[kind(bodies, term) as usize] += u64::from(holds(claimed, steps));
            }
        }
    }

    pub fn print(&self) {
        println!("{}", cells("deduction, answer", Answer::all(), Answer::word));
        for (counts, (title, ..)) in self.pages.iter().zip(PAGES) {
            println!("{}", cells(title, counts, |count| count));
        }
        println!("\n{}", cells("deduction, rule", Rule::ALL, Rule::word));
        for (counts, (title, _)) in self.steps.iter().zip(STEPS) {
            println!("{}", cells(title, Rule::ALL, |rule| counts[rule as usize]));
        }
        println!("\n{}", cells("deduction, key", Kind::locking(), Kind::word));
        for (counts, (title, ..)) in self.keys.iter().zip(KEYS) {
            println!("{}", cells(title, Kind::locking(), |kind| counts[kind as usize]));
        }
        println!("\n{}", cells("deduction, term", Kind::ALL, Kind::word));
        for (title, _, counts) in self.by_kind() {
            println!("{}", cells(title, Kind::ALL, |kind| counts[kind as usize]));
        }
    }

    fn by_kind(&self) -> Vec<Counts<'_>> {
        let noes = self.noes.iter().zip(NOES);
        let noes = noes.map(|(counts, (title, is_reached, _))| (title, is_reached, counts));
        let terms = self.terms.iter().zip(TERMS);
        let terms = terms.map(|(counts, (title, is_reached, _))| (title, is_reached, counts));
        let again = self.again.iter().zip(AGAIN);
        let again = again.map(|(counts, (title, is_reached, _))| (title, is_reached, counts));
        noes.chain(terms).chain(again).collect()
    }

    /// What should have been reached and was not.
    pub fn missing(&self) -> Vec<String> {
        let mut missing = Vec::new();
        for (counts, (title, _, is_reached)) in self.pages.iter().zip(PAGES) {
            let answers = Answer::all().into_iter().zip(counts);
            let never = answers.filter(|(answer, &count)| is_reached(*answer) && count == 0);
            missing.extend(never.map(|(answer, _)| format!("{title}: {}", answer.word())));
        }
        for (counts, (title, _)) in self.steps.iter().zip(STEPS) {
            let never = Rule::ALL.into_iter().filter(|&rule| counts[rule as usize] == 0);
            missing.extend(never.map(|rule| format!("{title}: {}", rule.word())));
        }
        for (counts, (title, is_reached, ..)) in self.keys.iter().zip(KEYS) {
            let keys = Kind::locking().into_iter().filter(|&kind| is_reached(kind));
            let never = keys.filter(|&kind| counts[kind as usize] == 0);
            missing.extend(never.map(|kind| format!("{title}: {}", kind.word())));
        }
        for (title, is_reached, counts) in self.by_kind() {
            let kinds = Kind::ALL.into_iter().filter(|&kind| is_reached(kind));
            let never = kinds.filter(|&kind| counts[kind as usize] == 0);
            missing.extend(never.map(|kind| format!("{title}: {}", kind.word())));
        }
        missing.into_iter().map(|row| format!("deduction {row}")).collect()
    }
}
