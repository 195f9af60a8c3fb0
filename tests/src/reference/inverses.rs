//! The inverses of listed keys.

use super::term::Term;
use crate::tables::NO_INVERSE;

/// One byte for each term: the number of its inverse. Only keys have one.
pub fn numbers(terms: &[Term]) -> Vec<u8> {
    terms.iter().map(|term| number(terms, term)).collect()
}

fn number(terms: &[Term], term: &Term) -> u8 {
    match terms.iter().position(|other| term.is_inverse_of(other)) {
        Some(number) => u8::try_from(number).expect("check 2 leaves numbers of one byte"),
        None => NO_INVERSE,
    }
}
