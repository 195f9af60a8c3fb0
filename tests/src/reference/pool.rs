//! What has to hold of the pool of two submissions, looked for without joining them.

use std::collections::HashSet;
use std::mem;

use super::refusal::{Checked, Refusal};
use super::submission::Submission;
use super::term::Term;
use crate::bodies::Bodies;

/// What is wrong with a pool.
#[derive(Clone, Copy, PartialEq, Eq, Debug)]
pub enum PoolFault {
    /// Checks 1 to 5 refuse it.
    Refused(Refusal),
    /// A term of the first has another number.
    Renumbered,
    /// Its terms are not those of both, or those that only the second has are in another order.
    OtherTerms,
    /// The messages of its knowledge are not those of both, or they are in another order.
    OtherKnowledge,
    /// Its derivation or its claim is not the first's.
    OtherDerivation,
    OtherClaim,
}

/// The first fault, by the order above, of the pool of these two, which pass checks 1 to 5. Where there is
/// none, the number in the pool of each of the second's terms.
pub fn numbers_in_pool(first: &[u8], second: &[u8], pool: &[u8]) -> Result<Vec<u8>, PoolFault> {
    let mut read = Submission::read(first).expect("checks 1 to 4 are passed");
    let store = mem::take(&mut read.store);
    let mut second = Submission::read_into(store, second).expect("checks 1 to 4 are passed");
    let store = mem::take(&mut second.store);
    let pooled: Checked<Submission> = Submission::read_into(store, pool);
    let pooled = pooled.map_err(PoolFault::Refused)?;
    pooled.claim().map_err(PoolFault::Refused)?;
    if !pooled.terms.starts_with(&read.terms) {
        return Err(PoolFault::Renumbered);
    }
    if !is_union(&pooled.terms, &read.terms, &second.terms) {
        return Err(PoolFault::OtherTerms);
    }
    if !is_union(&pooled.knowledge, &read.knowledge, &second.knowledge) {
        return Err(PoolFault::OtherKnowledge);
    }
    let [own, found] = [first, pool].map(|bytes| Bodies::read(bytes).expect("check 2 is passed"));
    if found.derivation != own.derivation {
        return Err(PoolFault::OtherDerivation);
    }
    if found.claim != own.claim {
        return Err(PoolFault::OtherClaim);
    }
    let number = |term: &Term| pooled.terms.iter().position(|pooled| pooled == term);
    let numbers = second.terms.iter().map(|term| number(term).expect("a term of the pool") as u8);
    Ok(numbers.collect())
}

/// Whether these are the first's, each where it is there, and then what the second has besides, each once
/// and in the second's order. None is in the first twice, nor in the second.
fn is_union(pooled: &[Term], first: &[Term], second: &[Term]) -> bool {
    let Some(added) = pooled.strip_prefix(first) else {
        return false;
    };
    let places: Vec<usize> =
        added.iter().filter_map(|term| second.iter().position(|other| other == term)).collect();
    let is_new: HashSet<&Term> = second.iter().filter(|term| !first.contains(term)).collect();
    places.is_sorted()
        && added.len() == is_new.len()
        && added.iter().collect::<HashSet<_>>() == is_new
}
