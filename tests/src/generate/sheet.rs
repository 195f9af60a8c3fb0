//! Terms whose deduction is asked for, each with a page.

use super::claimed_term;
use super::random::Random;
use crate::bodies::Bodies;
use crate::reference::Deductions;
use crate::tables::SHORTEST_SHEET;

pub struct Sheet {
    pub term: u8,
    /// The page before the call.
    pub page: Vec<u8>,
}

/// The tables up to this many terms of which every term is asked for, and how many others are of a
/// larger one.
const SMALL: usize = 12;
const SAMPLE: usize = 4;

/// Every term of a small table; of a larger one the first, the last, the guess, the term claimed and
/// others; all on pages that are long enough. Then a listed term on pages that are too short, and terms
/// that are not listed, on pages of any length.
pub fn sheets(random: &mut Random, submission: &[u8]) -> Vec<Sheet> {
    let bodies = Bodies::read(submission).unwrap_or_default();
    let terms = bodies.terms.len();
    let mut sheets: Vec<Sheet> = asked(random, &bodies)
        .into_iter()
        .map(|term| {
            let length = long(random);
            Sheet { term, page: random.page(length) }
        })
        .collect();
    let listed = random.below(terms.max(1)) as u8;
    let shorter = random.below(SHORTEST_SHEET);
    let short = [SHORTEST_SHEET - 1, random.pick(&[0, shorter])];
    let other = random.between(terms, u8::MAX.into());
    let unlisted = random.pick(&[terms, other]) as u8;
    let any = random.pick(&[0, SHORTEST_SHEET - 1, SHORTEST_SHEET, SHORTEST_SHEET + 1]);
    let others = short.map(|length| (listed, length)).into_iter().chain([(unlisted, any)]);
    sheets.extend(others.map(|(term, length)| Sheet { term, page: random.page(length) }));
    sheets
}

fn asked(random: &mut Random, bodies: &Bodies) -> Vec<u8> {
    let terms = bodies.terms.len();
    if terms <= SMALL {
        return (0..terms as u8).collect();
    }
    let [guess, ..] = bodies.claim;
    let sample = (0..SAMPLE).map(|_| random.below(terms) as u8);
    [0, (terms - 1) as u8, guess].into_iter().chain(claimed_term(bodies)).chain(sample).collect()
}

/// The length of a page that is long enough: exact, longer, or too short in its low two bytes.
fn long(random: &mut Random) -> usize {
    match random.weighted(&[600, 300, 99, 1]) {
        0 => SHORTEST_SHEET,
        1 => SHORTEST_SHEET + random.between(1, 20),
        2 => SHORTEST_SHEET + random.below(300),
        _ => 65_536 + random.below(SHORTEST_SHEET),
    }
}

/// The term to which the reference goes by the most steps, the first of several; none where nothing is
/// deducible, or the submission is refused.
pub fn farthest(submission: &[u8]) -> Option<u8> {
    let deductions = Deductions::of(submission).ok()?;
    let steps = |term: &u8| match deductions.steps(*term, SHORTEST_SHEET) {
        Ok(steps) => steps.map(|steps| steps.len()),
        Err(_) => None,
    };
    let deducible = (0..=u8::MAX).filter(|term| steps(term).is_some());
    deducible.rev().max_by_key(steps)
}
