//! Submissions, pages, names, programs and forms to compare the checker with the reference on. One
//! seed gives one sequence of inputs.

mod damage;
mod deepest;
mod form;
mod keys;
mod limits;
mod names;
mod pair;
mod program;
mod protocol;
mod random;
mod relative;
mod sent;
pub mod shapes;
mod sheet;
mod steps;
mod table;

use crate::bodies::{self, Bodies};
use crate::reference::{self, contents};
use crate::tables::{program_length, Body, Kind, Way, LONGEST_PROGRAM};
use names::Names;
use program::Registers;
use protocol::{protocol, Size};
use random::Random;
use shapes::{Nesting, Order, Secrets};

pub use deepest::deepest;
pub use form::Form;
pub use limits::padded;
pub use pair::Pair;
pub use program::{repeated, shortest};
pub use relative::{joinable, turned};
pub use sent::{astray, Sent};
pub use sheet::{farthest, Sheet};
pub use steps::{around, premises};
pub use table::Table;

/// What one round of the comparison uses.
pub struct Input {
    pub submission: Vec<u8>,
    /// The page before the check.
    pub page: Vec<u8>,
    /// Term numbers to ask for. That of a term which is claimed to be deducible is among them.
    pub asked: Vec<u8>,
    /// Names and programs to run: among others, each of the names below with a short program.
    pub runs: Vec<(u16, Vec<u8>)>,
    /// Names to run the program on the page with: first that of the submission's own guess, 0 where
    /// it has none; then every stale one, and others.
    pub names: Vec<u16>,
    /// What to write: first the submission's own bodies, where it passes checks 1 and 2, on a page
    /// that is long enough.
    pub forms: Vec<Form>,
    /// Pages before the inverses are written.
    pub inverse_pages: Vec<Vec<u8>>,
    /// Programs to read back: first the submission's own, where it is accepted, on a page that is long
    /// enough.
    pub sent: Vec<Sent>,
    /// Terms whose deduction is asked for, and the pages for that.
    pub sheets: Vec<Sheet>,
    /// Submissions to join: most often this one and another.
    pub pairs: Vec<Pair>,
}

/// A name that no example and no deepest input lists, and so that of a wrong guess.
pub const UNLISTED: u16 = u16::MAX;

/// How many protocols are kept for changing them.
const KEPT: usize = 64;

pub struct Source {
    random: Random,
    /// For the sheets alone, and for the pairs, so that all else of a seed is the same with and without
    /// them.
    sheets: Random,
    pairs: Random,
    kept: Vec<Bodies>,
}

impl Source {
    pub fn new(seed: u64) -> Source {
        let mut random = Random::new(seed);
        let kept = (0..KEPT).map(|_| fresh(&mut random)).collect();
        let pairs = Random::new(Random::new(seed).number());
        Source { random, sheets: Random::new(!seed), pairs, kept }
    }

    pub fn next_input(&mut self) -> Input {
        let submission = self.submission();
        self.input(submission)
    }

    /// What to try with this submission.
    pub fn input(&mut self, submission: Vec<u8>) -> Input {
        let names = Names::of(&submission);
        let tried = names.tried(&mut self.random);
        let own = reference::program(&submission).ok();
        Input {
            page: self.page(&submission),
            asked: self.asked(&submission),
            runs: self.runs(&submission, &names, &tried, own.as_deref()),
            names: tried,
            forms: self.forms(&submission),
            inverse_pages: self.inverse_pages(&submission),
            sent: sent::sent(&mut self.random, &submission, own.as_deref()),
            sheets: sheet::sheets(&mut self.sheets, &submission),
            pairs: pair::pairs(&mut self.pairs, &submission, &self.kept),
            submission,
        }
    }

    /// What to try with a published example: the page is long enough, a wrong guess is run, the programs
    /// that are published with it are read back, and it is joined with each of the others.
    pub fn example(
        &mut self,
        submission: Vec<u8>,
        programs: Vec<Vec<u8>>,
        others: &[Vec<u8>],
    ) -> Input {
        let mut input = self.input(submission);
        input.page = self.random.bytes(LONGEST_PROGRAM);
        input.names.push(UNLISTED);
        let sent = programs.into_iter().map(|program| Sent::with_room(&mut self.random, program));
        input.sent.extend(sent);
        let pairs = others.iter().map(|other| Pair::with_room(&input.submission, other));
        input.pairs.extend(pairs);
        input
    }

    fn submission(&mut self) -> Vec<u8> {
        match self.random.weighted(&[500, 280, 120, 40, 10, 40, 10, 20]) {
            0 => self.protocol().submission(),
            1 => self.changed().submission(),
            2 => {
                let submission = self.kept().submission();
                damage::changed_bytes(&mut self.random, &submission)
            }
            3 => self.near_limits().submission(),
            4 => limits::wild_counts(&mut self.random),
            5 => self.noise(),
            6 => self.shape().submission(),
            _ => self.keys().submission(),
        }
    }

    /// A new protocol, which takes the place of one that was kept.
    fn protocol(&mut self) -> Bodies {
        let bodies = fresh(&mut self.random);
        let place = self.random.below(KEPT);
        self.kept[place] = bodies.clone();
        bodies
    }

    fn kept(&mut self) -> &Bodies {
        &self.kept[self.random.below(KEPT)]
    }

    /// A kept protocol with one or two changes.
    fn changed(&mut self) -> Bodies {
        let bodies = self.kept().clone();
        let once = damage::changed_records(&mut self.random, &bodies);
        if self.random.chance(80) {
            return once;
        }
        damage::changed_records(&mut self.random, &once)
    }

    /// A kept protocol padded to a limit, perhaps with a change.
    fn near_limits(&mut self) -> Bodies {
        let bodies = self.kept().clone();
        let padded = limits::near_limits(&mut self.random, &bodies);
        if self.random.chance(60) {
            return padded;
        }
        damage::changed_records(&mut self.random, &padded)
    }

    /// A table of keys, perhaps with a change.
    fn keys(&mut self) -> Bodies {
        let bodies = keys::keys(&mut self.random);
        if self.random.chance(80) {
            return bodies;
        }
        damage::changed_records(&mut self.random, &bodies)
    }

    /// Plain bytes, or one record of plain bytes in each body.
    fn noise(&mut self) -> Vec<u8> {
        if self.random.chance(50) {
            let bodies = Body::ALL.map(|body| self.random.bytes(body.record()));
            return bodies::submission(bodies.each_ref().map(Vec::as_slice));
        }
        let length = self.random.below(40);
        self.random.bytes(length)
    }

    fn shape(&mut self) -> Bodies {
        let size = self.random.between(4, Body::Terms.most());
        let (_, order) = self.random.pick(&Order::ALL);
        let (_, secrets) = self.random.pick(&Secrets::ALL);
        let depth = self.random.between(0, 4);
        match self.random.below(9) {
            0 => shapes::doubling_known(size),
            1 => shapes::doubling_asked(size),
            2 => {
                let (opener, _) = self.random.pick(&Kind::inverses());
                shapes::inverse_key_chain(opener, size / 4, order)
            }
            3 => shapes::plain_key_chain(size / 5, self.random.below(70), order),
            4 => shapes::nested_pairs(size / 2, self.random.below(size / 4), size / 5),
            5 => {
                let most = Body::Derivation.most().min(size - 1);
                shapes::built(Nesting::Hashes, size, self.random.between(1, most))
            }
            6 => shapes::hash_key_chain(secrets, size / (depth + 3), depth, order),
            7 => shapes::nested_hash_keys(size / (depth + 4), depth),
            _ => shapes::largest(),
        }
    }

    /// A page of random bytes: too short by one, exact, or longer.
    fn page(&mut self, submission: &[u8]) -> Vec<u8> {
        let steps = Bodies::read(submission).map_or(0, |bodies| bodies.derivation.len());
        let exact = program_length(steps);
        let length = match self.random.weighted(&[6, 2, 40, 40, 12]) {
            0 => exact - 1,
            1 => self.random.below(exact),
            2 => exact,
            3 => exact + self.random.between(1, 20),
            _ => LONGEST_PROGRAM,
        };
        self.random.bytes(length)
    }

    /// Some numbers, most often of listed terms, and that of the term claimed.
    fn asked(&mut self, submission: &[u8]) -> Vec<u8> {
        let bodies = Bodies::read(submission);
        let number = |_| match &bodies {
            Ok(bodies) if self.random.chance(95) => self.random.below(bodies.terms.len() + 1) as u8,
            _ => self.random.byte(),
        };
        let mut asked: Vec<u8> = (0..4).map(number).collect();
        asked.extend(bodies.ok().and_then(|bodies| claimed_term(&bodies)));
        asked
    }

    /// Runs with the submission's own program, if it is accepted, changed ones and others, each with one
    /// of its names; and with a short program, with each of the names that are tried.
    fn runs(
        &mut self,
        submission: &[u8],
        names: &Names,
        tried: &[u16],
        own: Option<&[u8]>,
    ) -> Vec<(u16, Vec<u8>)> {
        let registers = Registers::of(&Bodies::read(submission).unwrap_or_default());
        let valid = program::valid(&mut self.random, &registers);
        let mut programs = vec![program::damaged(&mut self.random, &valid), valid];
        if let Some(own) = own {
            programs.push(program::damaged(&mut self.random, own));
            programs.push(own.to_vec());
        }
        let short = program::short(&mut self.random, &registers);
        let named = programs.into_iter().map(|program| (names.one(&mut self.random), program));
        named.chain(tried.iter().map(|&name| (name, short.clone()))).collect()
    }

    /// The submission's own bodies, as they are and changed; changed ones of a kept protocol where it
    /// has none.
    fn forms(&mut self, submission: &[u8]) -> Vec<Form> {
        match contents::bodies(submission) {
            Ok(own) => {
                vec![form::unchanged(&mut self.random, own), form::changed(&mut self.random, own)]
            }
            Err(_) => {
                let place = self.random.below(KEPT);
                vec![form::changed(&mut self.random, self.kept[place].bytes())]
            }
        }
    }

    /// Pages of random bytes: none, too short by one, exact, longer, and one that is too short, or is
    /// so in its low byte or in its low two bytes.
    fn inverse_pages(&mut self, submission: &[u8]) -> Vec<Vec<u8>> {
        let terms = Bodies::read(submission).map_or(1, |bodies| bodies.terms.len());
        let longer = terms + self.random.between(1, 20);
        let over = [0, 256, 65_536][self.random.weighted(&[50, 49, 1])];
        let short = over + self.random.below(terms);
        [0, terms - 1, terms, longer, short].map(|length| self.random.bytes(length)).to_vec()
    }
}

/// The number of the term that the claim says is deducible, where it says so of a listed one.
pub fn claimed_term(bodies: &Bodies) -> Option<u8> {
    let [guess, _, way, _] = bodies.claim;
    Table::of(&bodies.terms).claimed(guess, Way::from_letter(way)?)
}

/// A new protocol of some size, small ones more often.
fn fresh(random: &mut Random) -> Bodies {
    let size = match random.weighted(&[70, 25, 5]) {
        0 => Size { compounds: 8, steps: 8 },
        1 => Size { compounds: 30, steps: 25 },
        _ => Size { compounds: 150, steps: Body::Derivation.most() },
    };
    protocol(random, &size)
}
