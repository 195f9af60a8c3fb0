//! Counts of programs that were read back: by the way of the claim, by the test, and by the refusal.

use checker_tests::bodies::Bodies;
use checker_tests::generate::{Input, Sent};
use checker_tests::reference::{self, Checked, Refusal};
use checker_tests::tables::{
    read_back_length, Call, Claimed, Deducible, Reason, Test, Way, INSTRUCTION_SIZE,
    MOST_INSTRUCTIONS,
};

use crate::tally::{cells, way_title};

/// A row of claims: its title, in which ways it has to be reached, and whether it counts a program.
type ClaimRow = (&'static str, fn(Way) -> bool, fn(&Claim) -> bool);

const CLAIMS: [ClaimRow; 22] = [
    ("read back", any, |claim| claim.is_written()),
    ("11", any, |claim| !claim.is_written()),
    ("K = 0", any, |claim| claim.own.knowledge.is_empty()),
    ("n = 0", says_deducible, |claim| claim.count() == 0),
    ("n = 128", any, |claim| claim.count() == MOST_INSTRUCTIONS),
    ("n below N", any, |claim| claim.count() < claim.own.derivation.len()),
    ("n above N", any, |claim| claim.count() > claim.own.derivation.len()),
    ("signals 0", any, |claim| !claim.signals()),
    ("accepted", any, |claim| claim.is_accepted()),
    ("accepted, reordered", any, |claim| claim.is_accepted() && claim.is_reordered()),
    ("accepted, more steps", any, |claim| claim.is_accepted() && claim.has_more_steps()),
    ("accepted, other page", any, |claim| claim.is_accepted() && !claim.is_page()),
    ("accepted, signals 0", not_compared, |claim| claim.is_accepted() && !claim.signals()),
    ("second: knowledge", not_step, |claim| claim.sent.owners()[1] == Owner::Knowledge),
    ("second: guess", knows_guess, |claim| claim.sent.owners()[1] == Owner::Guess),
    ("second: step", not_lower, |claim| claim.sent.owners()[1] == Owner::Step),
    ("again, 5", of_key, |claim| claim.is_refused(Reason::Claim)),
    ("again, 7", says_deducible, |claim| claim.is_refused(Reason::Unfounded)),
    ("again, 8", is_verifier, |claim| claim.is_refused(Reason::Reachable)),
    ("again, 9", is_verifier, |claim| claim.is_refused(Reason::NoSecondWay)),
    ("again, 10", is_verifier, |claim| claim.is_refused(Reason::Undone)),
    ("again, 16", says_deducible, |claim| claim.is_refused(Reason::NotShown)),
];

fn any(_: Way) -> bool {
    true
}

fn is_verifier(way: Way) -> bool {
    matches!(way.claimed(), Claimed::Verifier(_))
}

fn says_deducible(way: Way) -> bool {
    !is_verifier(way)
}

fn of_key(way: Way) -> bool {
    matches!(way.claimed(), Claimed::Deducible(Deducible::Inverse))
}

/// The ways whose second register may be an entry's, the guess's, or a step's.
fn not_step(way: Way) -> bool {
    way != Way::AnotherStep
}

fn knows_guess(way: Way) -> bool {
    matches!(way, Way::KnownBefore | Way::Inverse)
}

fn not_lower(way: Way) -> bool {
    way != Way::KnownBefore
}

/// The ways in which what the second register holds may not count.
fn not_compared(way: Way) -> bool {
    !matches!(way, Way::AnotherStep | Way::Inverse)
}

/// A row of refusals: its title, and whether it counts a program that is refused for this.
type RefusalRow = (&'static str, fn(&Program, Refusal) -> bool);

const REFUSALS: [RefusalRow; 12] = [
    ("17, first of more", |program, refusal| program.is_off(refusal, 0) && program.count() > 1),
    ("17, between", |program, refusal| {
        (1..program.count().saturating_sub(1)).any(|step| program.is_off(refusal, step))
    }),
    ("17, last of more", |program, refusal| {
        program.count() > 1 && program.is_off(refusal, program.count() - 1)
    }),
    ("17, the only step", |program, refusal| program.count() == 1 && program.is_off(refusal, 0)),
    ("17, last of 128", |program, refusal| {
        program.count() == MOST_INSTRUCTIONS && program.is_off(refusal, MOST_INSTRUCTIONS - 1)
    }),
    ("17, no claim", |program, refusal| {
        is_for(refusal, Reason::OffTheTable) && program.claims_nothing()
    }),
    ("18, n = 0", |program, refusal| is_for(refusal, Reason::NoClaim) && program.count() == 0),
    ("18, n = 128", |program, refusal| {
        is_for(refusal, Reason::NoClaim) && program.count() == MOST_INSTRUCTIONS
    }),
    ("18, entry, entry", |program, refusal| {
        program.is_no_claim(refusal, [Owner::Knowledge, Owner::Knowledge])
    }),
    ("18, entry, guess", |program, refusal| {
        program.is_no_claim(refusal, [Owner::Knowledge, Owner::Guess])
    }),
    ("18, entry, step", |program, refusal| {
        program.is_no_claim(refusal, [Owner::Knowledge, Owner::Step])
    }),
    ("18, guess, guess", |program, refusal| {
        program.is_no_claim(refusal, [Owner::Guess, Owner::Guess])
    }),
];

fn is_for(refusal: Refusal, reason: Reason) -> bool {
    refusal.reason == reason
}

/// What a register belongs to.
#[derive(Clone, Copy, PartialEq, Eq)]
enum Owner {
    Knowledge,
    Guess,
    Step,
}

/// A program that passes check 13.
struct Program<'a> {
    bytes: &'a [u8],
    /// How many entries the knowledge has, which is the guess's register.
    knowledge: usize,
}

impl Program<'_> {
    fn count(&self) -> usize {
        self.bytes[0].into()
    }

    fn test(&self) -> [u8; INSTRUCTION_SIZE] {
        self.bytes[self.bytes.len() - INSTRUCTION_SIZE..].try_into().expect("the bytes of a test")
    }

    /// To what the registers of the test belong.
    fn owners(&self) -> [Owner; 2] {
        let [_, registers @ ..] = self.test();
        registers.map(|register| match usize::from(register) {
            register if register < self.knowledge => Owner::Knowledge,
            register if register == self.knowledge => Owner::Guess,
            _ => Owner::Step,
        })
    }

    fn claims_nothing(&self) -> bool {
        matches!(self.owners(), [Owner::Knowledge, _] | [Owner::Guess, Owner::Guess])
    }

    /// Whether it is refused for what this step's register holds.
    fn is_off(&self, refusal: Refusal, step: usize) -> bool {
        refusal == Refusal { reason: Reason::OffTheTable, place: self.knowledge + 1 + step }
    }

    fn is_no_claim(&self, refusal: Refusal, owners: [Owner; 2]) -> bool {
        is_for(refusal, Reason::NoClaim) && self.owners() == owners
    }
}

/// A program that makes a claim over listed terms.
struct Claim<'a> {
    submission: &'a [u8],
    /// The submission's own bodies, and those with what the program is read back to.
    own: Bodies,
    bodies: Bodies,
    sent: Program<'a>,
    /// What check answers to the latter, and the page after that; none where the page was too short to
    /// read the program back.
    checked: Option<(Checked<u8>, &'a [u8])>,
}

impl Claim<'_> {
    fn count(&self) -> usize {
        self.sent.count()
    }

    fn is_written(&self) -> bool {
        self.checked.is_some()
    }

    fn is_accepted(&self) -> bool {
        matches!(self.checked, Some((Ok(_), _)))
    }

    fn is_refused(&self, reason: Reason) -> bool {
        matches!(self.checked, Some((Err(refusal), _)) if is_for(refusal, reason))
    }

    /// Whether the check wrote the program that was sent.
    fn is_page(&self) -> bool {
        self.checked.is_some_and(|(_, page)| page.starts_with(self.sent.bytes))
    }

    /// Whether it has the submission's own steps, in another order.
    fn is_reordered(&self) -> bool {
        self.bodies.derivation != self.own.derivation
            && sorted(&self.bodies.derivation) == sorted(&self.own.derivation)
    }

    /// Whether it has the submission's own steps, at least one, and more.
    fn has_more_steps(&self) -> bool {
        let mut more = self.bodies.derivation.clone();
        let mut is_there = |step: &[u8; 4]| {
            let place = more.iter().position(|other| other == step);
            place.map(|place| more.remove(place)).is_some()
        };
        let own = &self.own.derivation;
        !own.is_empty() && own.len() < self.count() && own.iter().all(&mut is_there)
    }

    /// What the program signals with the right guess.
    fn signals(&self) -> bool {
        let (_, name) = reference::guess(self.submission).expect("checks 1 to 5 are passed");
        reference::run(self.submission, name, self.sent.bytes) == Ok(true)
    }
}

fn sorted(steps: &[[u8; 4]]) -> Vec<[u8; 4]> {
    let mut sorted = steps.to_vec();
    sorted.sort_unstable();
    sorted
}

#[derive(Default)]
pub struct Programs {
    claims: [[u64; Way::ALL.len()]; CLAIMS.len()],
    refusals: [[u64; Test::ALL.len()]; REFUSALS.len()],
    /// Refusals for something else than the page, where the page was too short.
    short: [u64; Reason::ALL.len()],
    /// Programs of accepted submissions that gave their own bodies and themselves again.
    pub own: u64,
}

impl Programs {
    /// Counts a program that is read back to these bytes, what check answers to these in the place of
    /// the submission's own bodies, and the page after that.
    pub fn count_accepted(
        &mut self,
        input: &Input,
        sent: &Sent,
        read_back: &[u8],
        check: Checked<u8>,
        page: &[u8],
    ) {
        self.count_claim(input, sent, read_back, Some((check, page)));
    }

    pub fn count_refused(&mut self, input: &Input, sent: &Sent, refusal: Refusal) {
        match refusal.reason {
            Reason::Page => {
                let bodies = reference::derivation_and_claim(&input.submission, &sent.program);
                self.count_claim(input, sent, &bodies.expect("all but the page is good"), None);
            }
            Reason::OffTheTable | Reason::NoClaim => self.count_refusal(input, sent, refusal),
            _ => (),
        }
        let needed = sent.program.first().map_or(1, |&count| read_back_length(count.into()));
        self.short[refusal.reason as usize] += u64::from(sent.page.len() < needed);
    }

    fn count_claim(
        &mut self,
        input: &Input,
        sent: &Sent,
        read_back: &[u8],
        checked: Option<(Checked<u8>, &[u8])>,
    ) {
        let own = own_bodies(input);
        let bodies = own.with(read_back);
        let way = Way::from_letter(bodies.claim[2]).expect("the test is that of a way");
        let sent = Program { bytes: &sent.program, knowledge: own.knowledge.len() };
        let claim = Claim { submission: &input.submission, own, bodies, sent, checked };
        for (counts, (_, is_counted, holds)) in self.claims.iter_mut().zip(CLAIMS) {
            counts[way as usize] += u64::from(is_counted(way) && holds(&claim));
        }
    }

    fn count_refusal(&mut self, input: &Input, sent: &Sent, refusal: Refusal) {
        let knowledge = own_bodies(input).knowledge.len();
        let program = Program { bytes: &sent.program, knowledge };
        let test = Test::from_letter(program.test()[0]).expect("check 13 leaves a test");
        for (counts, (_, holds)) in self.refusals.iter_mut().zip(REFUSALS) {
            counts[test as usize] += u64::from(holds(&program, refusal));
        }
    }

    pub fn print(&self) {
        println!("{}", cells("program, way", Way::ALL, |way| char::from(way.letter())));
        for (counts, (title, ..)) in self.claims.iter().zip(CLAIMS) {
            println!("{}", cells(title, Way::ALL, |way| counts[way as usize]));
        }
        println!("\n{}", cells("program, test", Test::ALL, Test::word));
        for (counts, (title, _)) in self.refusals.iter().zip(REFUSALS) {
            println!("{}", cells(title, Test::ALL, |test| counts[test as usize]));
        }
        let refusals = Call::ReadBack.refusals();
        println!("\n{}", cells("program, refusal", refusals, |reason| reason.number()));
        println!("{}", cells("short page", refusals, |&reason| self.short[reason as usize]));
        println!(
            "\nprograms that gave their submission's bodies and themselves again: {}",
            self.own
        );
    }

    /// What should have been reached and was not.
    pub fn missing(&self) -> Vec<String> {
        let mut missing = Vec::new();
        for (counts, (title, is_counted, _)) in self.claims.iter().zip(CLAIMS) {
            let never =
                Way::ALL.into_iter().filter(|&way| is_counted(way) && counts[way as usize] == 0);
            missing.extend(never.map(|way| format!("program {title}: {}", way_title(way))));
        }
        for (counts, (title, _)) in self.refusals.iter().zip(REFUSALS) {
            let never = Test::ALL.into_iter().filter(|&test| counts[test as usize] == 0);
            missing.extend(never.map(|test| format!("program {title}: test {}", test.word())));
        }
        for &reason in Call::ReadBack.refusals() {
            if self.short[reason as usize] == 0 {
                missing.push(format!("program with a short page, refused {}", reason.number()));
            }
        }
        if self.own == 0 {
            missing.push("a program that gave its submission's bodies".to_string());
        }
        missing
    }
}

fn own_bodies(input: &Input) -> Bodies {
    Bodies::read(&input.submission).expect("checks 1 to 5 are passed")
}
