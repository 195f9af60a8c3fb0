//! Submissions at the limits of the counts, and just over them.

use super::random::Random;
use super::table::Table;
use crate::bodies::{submission, Bodies};
use crate::tables::{Body, Kind};

/// The bodies with fresh atoms, known ones among them, and repeated steps, up to these counts. An
/// accepted submission stays accepted.
pub fn padded(bodies: &Bodies, terms: usize, knowledge: usize, steps: usize) -> Bodies {
    let mut table = Table::of(&bodies.terms);
    let first_fresh = bodies.terms.len();
    for name in 0..=u16::MAX {
        if table.records.len() >= terms {
            break;
        }
        table.atom(Kind::Plain, name);
    }
    let mut padded = Bodies { terms: table.records, ..bodies.clone() };
    let missing = knowledge.saturating_sub(bodies.knowledge.len());
    padded.knowledge.extend((first_fresh..padded.terms.len()).take(missing).map(|n| n as u8));
    let repeated = bodies.derivation.iter().cycle().copied();
    padded.derivation.extend(repeated.take(steps.saturating_sub(bodies.derivation.len())));
    padded
}

/// Pads to a limit, one less, or one more.
pub fn near_limits(random: &mut Random, bodies: &Bodies) -> Bodies {
    let mut near = |body: Body| match random.below(8) {
        0 => body.most() + 1,
        1 => body.most() - 1,
        2 => 0,
        _ => body.most(),
    };
    padded(bodies, near(Body::Terms), near(Body::Knowledge), near(Body::Derivation))
}

/// A submission with counts that fit its length but not the limits: any number of records up to
/// 255 in each body, none in some.
pub fn wild_counts(random: &mut Random) -> Vec<u8> {
    let limits = Body::ALL.into_iter().flat_map(|body| [body.most(), body.most() + 1]);
    let counts: Vec<usize> = [0, 1, 2, 255].into_iter().chain(limits).collect();
    let bodies = Body::ALL.map(|body| {
        let count = random.pick(&counts);
        random.bytes(count * body.record())
    });
    submission(bodies.each_ref().map(Vec::as_slice))
}
