//! The checker's answers to inputs, all asked on a thread with a small stack.

use std::thread;

use checker::raw::{self, REFUSAL};
use checker_tests::bodies::divided;
use checker_tests::generate::{Form, Input, Pair, Sent, Sheet};
use checker_tests::reference::{contents, records};
use checker_tests::tables::{
    program_length, Body, Kind, Way, IN_KNOWLEDGE, LONGEST_PROGRAM, LONGEST_READ_BACK,
    LONGEST_SUBMISSION,
};

/// The stack of the thread that calls the checker, in bytes: what a call needs at most, as
/// include/checker.h says.
pub const STACK: usize = 96 * 1024;

/// What the checker answers to an input.
pub struct Answers {
    pub check: u32,
    /// The page after the check.
    pub page: Vec<u8>,
    pub deducible: Vec<u32>,
    pub runs: Vec<u32>,
    /// What running the program on the page answers to each of the input's names, where the
    /// submission is accepted.
    pub page_runs: Vec<u32>,
    pub writes: Vec<Written>,
    /// One for each of the input's pages.
    pub inverses: Vec<Inverses>,
    /// One for each of the programs that were sent.
    pub read_backs: Vec<ReadBack>,
    /// One for each of the input's sheets.
    pub deductions: Vec<Deduced>,
    /// One for each of the input's pairs.
    pub joins: Vec<Joined>,
}

/// What the checker answers to a form.
pub struct Written {
    pub answer: u32,
    /// The page after the call.
    pub page: Vec<u8>,
    /// What check answers to the bytes written, where the form is accepted.
    pub check: Option<u32>,
}

/// What the checker answers where it is asked for the inverses.
pub struct Inverses {
    pub answer: u32,
    /// The page after the call.
    pub page: Vec<u8>,
}

/// What the checker answers where a program is read back.
pub struct ReadBack {
    pub answer: u32,
    /// The page after the call.
    pub page: Vec<u8>,
    /// Where the program is accepted, what becomes of its bodies in the place of the submission's own.
    pub again: Option<Again>,
}

/// Bodies that were read back, in the place of a submission's own.
pub struct Again {
    /// What was written from them.
    pub submission: Vec<u8>,
    /// What check answers to it, and the page after that.
    pub check: u32,
    pub page: Vec<u8>,
    /// What this page is read back to, where the check accepts.
    pub read_back: Option<Vec<u8>>,
}

/// What the checker answers where it is asked for a deduction.
pub struct Deduced {
    pub answer: u32,
    /// The page after the call.
    pub page: Vec<u8>,
    /// What deducible answers for the same term.
    pub deducible: u32,
    /// What check answers to claims with these steps as the derivation, where there are no more than a
    /// derivation may have.
    pub again: Vec<(Claimed, u32)>,
}

/// A claim that is made of the steps to a term: that the last of them, or the knowledge where there is
/// none, gives the guess, in ways in which the guess doesn't count as known.
#[derive(Clone, Copy)]
pub struct Claimed {
    pub way: Way,
    pub guess: u8,
    /// Whether the term is what the claim says it is, and so the claim is true. In the others it is no
    /// atom.
    pub is_true: bool,
}

/// What the checker answers where two submissions are joined.
pub struct Joined {
    pub answer: u32,
    /// The page after the call.
    pub page: Vec<u8>,
    /// What it answers on the pool, where there is one.
    pub pooled: Option<Pooled>,
}

/// What the checker answers on a pool, and on the two that it is of.
pub struct Pooled {
    /// What check answers to the first, and to the pool.
    pub checks: [u32; 2],
    /// What is written where the first is joined with itself, and the pool with each of the two.
    pub again: [Option<Vec<u8>>; 3],
    /// What deducible answers for each term of the first, of the second and of the pool, where that is
    /// asked.
    pub deducible: Option<[Vec<u32>; 3]>,
}

/// The bytes of a page before a check whose bytes are compared.
pub const PAINT: u8 = 0xA5;

/// The answers to these inputs. A call that needs more stack ends the process, with the thread's
/// name in the message.
pub fn answers<'a>(
    thread_name: &str,
    inputs: impl Iterator<Item = &'a Input> + Send,
) -> Vec<Answers> {
    thread::scope(|scope| {
        thread::Builder::new()
            .name(thread_name.to_string())
            .stack_size(STACK)
            .spawn_scoped(scope, || inputs.map(Answers::to).collect())
            .expect("a thread starts")
            .join()
            .expect("the calls end")
    })
}

impl Answers {
    fn to(input: &Input) -> Answers {
        let submission = &input.submission;
        let mut page = input.page.clone();
        let check = raw::check(submission, &mut page);
        Answers {
            page_runs: page_runs(input, check, &page),
            check,
            page,
            deducible: input.asked.iter().map(|&term| raw::deducible(submission, term)).collect(),
            runs: input
                .runs
                .iter()
                .map(|(name, program)| raw::run(submission, *name, program))
                .collect(),
            writes: input.forms.iter().map(Written::to).collect(),
            inverses: input.inverse_pages.iter().map(|page| Inverses::of(input, page)).collect(),
            read_backs: input.sent.iter().map(|sent| ReadBack::of(submission, sent)).collect(),
            deductions: input.sheets.iter().map(|sheet| Deduced::of(submission, sheet)).collect(),
            joins: input.pairs.iter().map(Joined::of).collect(),
        }
    }
}

impl Written {
    fn to(form: &Form) -> Written {
        let [terms, knowledge, derivation, claim] = form.bodies();
        let mut page = form.page.clone();
        let answer = raw::write(terms, knowledge, derivation, claim, &mut page);
        let written = written(answer, &page);
        let check = written.map(|written| raw::check(written, &mut [0; LONGEST_PROGRAM]));
        Written { answer, page, check }
    }
}

impl Inverses {
    fn of(input: &Input, page: &[u8]) -> Inverses {
        let mut page = page.to_vec();
        let answer = raw::inverses(&input.submission, &mut page);
        Inverses { answer, page }
    }
}

impl ReadBack {
    fn of(submission: &[u8], sent: &Sent) -> ReadBack {
        let mut page = sent.page.clone();
        let answer = raw::read_back(submission, &sent.program, &mut page);
        let again = written(answer, &page).and_then(|bodies| Again::with(submission, bodies));
        ReadBack { answer, page, again }
    }
}

impl Again {
    /// None where the bodies can't be put there.
    fn with(submission: &[u8], read_back: &[u8]) -> Option<Again> {
        if read_back.len() < Body::Claim.record() {
            return None;
        }
        let [terms, knowledge, ..] = contents::bodies(submission).ok()?;
        let [derivation, claim] = divided(read_back);
        let mut page = vec![0; LONGEST_SUBMISSION];
        let answer = raw::write(terms, knowledge, derivation, claim, &mut page);
        let submission = written(answer, &page)?.to_vec();
        let mut page = vec![PAINT; LONGEST_PROGRAM];
        let check = raw::check(&submission, &mut page);
        let read_back = program(check, &page).and_then(|program| {
            let mut bodies = vec![0; LONGEST_READ_BACK];
            let answer = raw::read_back(&submission, program, &mut bodies);
            written(answer, &bodies).map(<[u8]>::to_vec)
        });
        Some(Again { submission, check, page, read_back })
    }
}

impl Deduced {
    pub fn of(submission: &[u8], sheet: &Sheet) -> Deduced {
        let mut page = sheet.page.clone();
        let answer = raw::deduction(submission, sheet.term, &mut page);
        let deducible = raw::deducible(submission, sheet.term);
        let steps = steps_shown(answer, &page);
        let again = steps.map_or(vec![], |steps| Claimed::of(submission, sheet.term, steps));
        Deduced { deducible, again, answer, page }
    }

    /// The bytes of the steps, where the answer is yes and they are on the page.
    pub fn steps(&self) -> Option<&[u8]> {
        steps_shown(self.answer, &self.page)
    }
}

fn steps_shown(answer: u32, page: &[u8]) -> Option<&[u8]> {
    if answer >= REFUSAL {
        return None;
    }
    page.get(..Body::Derivation.record() * (answer as usize).checked_sub(1)?)
}

impl Claimed {
    /// The claims that can be made of these steps, with what check answers to them; or write, where it
    /// refuses one.
    fn of(submission: &[u8], term: u8, steps: &[u8]) -> Vec<(Claimed, u32)> {
        let count = steps.len() / Body::Derivation.record();
        if count > Body::Derivation.most() {
            return vec![];
        }
        let Ok([terms, knowledge, ..]) = contents::bodies(submission) else {
            return vec![];
        };
        let last = count.checked_sub(1).map_or(IN_KNOWLEDGE, |last| last as u8);
        let asked = |claimed: Claimed| {
            let claim = [claimed.guess, last, claimed.way.letter(), 0];
            let mut page = [0; LONGEST_SUBMISSION];
            let answer = raw::write(terms, knowledge, steps, &claim, &mut page);
            let check = |written| raw::check(written, &mut [0; LONGEST_PROGRAM]);
            (claimed, written(answer, &page).map_or(answer, check))
        };
        let mut claims = Claimed::about(terms, term);
        claims.retain(|claimed| claimed.is_true || count > 0);
        claims.into_iter().map(asked).collect()
    }

    /// That the guess is deducible, where the term is an atom, and that the inverse of the guess is,
    /// where the term is a key with a listed inverse. Where the term is no atom, that another guess is.
    fn about(terms: &[u8], term: u8) -> Vec<Claimed> {
        let mut records = records::<3>(terms);
        let Some([kind, high, low]) = records.clone().nth(term.into()) else {
            return vec![];
        };
        let Some(kind) = Kind::from_number(kind).filter(|kind| kind.is_atom()) else {
            return vec![Claimed { way: Way::DeducibleGuess, guess: 0, is_true: false }];
        };
        let guess = Claimed { way: Way::DeducibleGuess, guess: term, is_true: true };
        let inverse = kind.inverse().map(|inverse| [inverse.number(), high, low]);
        let inverse = records.position(|record| Some(record) == inverse);
        let of_inverse = inverse.map(|number| Claimed {
            way: Way::DeducibleInverse,
            guess: number as u8,
            is_true: true,
        });
        [guess].into_iter().chain(of_inverse).collect()
    }
}

impl Joined {
    pub fn of(pair: &Pair) -> Joined {
        let mut page = pair.page.clone();
        let answer = raw::join(&pair.first, &pair.second, &mut page);
        let pooled = written(answer, &page).map(|pool| Pooled::of(pair, pool));
        Joined { pooled, answer, page }
    }
}

impl Pooled {
    fn of(Pair { first, second, is_asked, .. }: &Pair, pool: &[u8]) -> Pooled {
        let check = |submission: &[u8]| raw::check(submission, &mut [0; LONGEST_PROGRAM]);
        Pooled {
            checks: [check(first), check(pool)],
            again: [joined(first, first), joined(pool, first), joined(pool, second)],
            deducible: is_asked.then(|| [first, second, pool].map(deducible_terms)),
        }
    }
}

/// What is written where these are joined.
fn joined(first: &[u8], second: &[u8]) -> Option<Vec<u8>> {
    let mut page = [PAINT; LONGEST_SUBMISSION];
    let answer = raw::join(first, second, &mut page);
    written(answer, &page).map(<[u8]>::to_vec)
}

/// What deducible answers for each term.
fn deducible_terms(submission: &[u8]) -> Vec<u32> {
    let terms =
        contents::bodies(submission).map_or(0, |[terms, ..]| terms.len() / Body::Terms.record());
    (0..terms).map(|term| raw::deducible(submission, term as u8)).collect()
}

/// The bytes on a page of which the answer is the count.
fn written(answer: u32, page: &[u8]) -> Option<&[u8]> {
    if answer < REFUSAL {
        page.get(..answer as usize)
    } else {
        None
    }
}

/// The program on a page, where this is what check answered.
fn program(check: u32, page: &[u8]) -> Option<&[u8]> {
    if check < REFUSAL {
        page.get(..program_length(check as usize))
    } else {
        None
    }
}

fn page_runs(input: &Input, check: u32, page: &[u8]) -> Vec<u32> {
    let Some(program) = program(check, page) else {
        return vec![];
    };
    input.names.iter().map(|&name| raw::run(&input.submission, name, program)).collect()
}
