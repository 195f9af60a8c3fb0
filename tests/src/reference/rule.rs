//! What the rules give where they meet what another rule made.

use super::term::Term;
use crate::tables::{Opener, Rule, Taking};

/// What the rule takes out of its first operand: a part of a pair, or the message of an encryption
/// that the second operand opens.
pub fn taken_apart(rule: Rule, operands: &[Term]) -> Option<Term> {
    let Taking { part, from, opener } = rule.takes()?;
    let built_from = operands[0].operands_of(from)?;
    opens(opener, built_from, operands).then(|| built_from[part].clone())
}

/// The term out of which the rules that take apart took the operands: t for pair(fst t, snd t),
/// enc(dec(t, k), k), and enca(deca(t, j), k) with inverse keys. Nothing takes a hash apart, so
/// there is none for it.
pub fn put_together(rule: Rule, operands: &[Term]) -> Option<Term> {
    let mut wholes = rule.takers().map(|(taker, Taking { part, opener, .. })| {
        let taken_from = operands[part].operands_of(taker)?;
        opens(opener, operands, taken_from).then(|| taken_from[0].clone())
    });
    let whole = wholes.next()??;
    wholes.all(|other| other.as_ref() == Some(&whole)).then_some(whole)
}

/// Whether a rule with these operands takes apart what one with those built, by its second operand.
fn opens(opener: Opener, built_from: &[Term], taken_from: &[Term]) -> bool {
    match opener {
        Opener::Nothing => true,
        Opener::Key => built_from[1] == taken_from[1],
        Opener::InverseKey => built_from[1].is_inverse_of(&taken_from[1]),
    }
}
