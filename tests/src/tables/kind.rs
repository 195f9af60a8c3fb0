//! The kinds of term.

use super::Rule;

table! {
    /// The kinds of term record: atoms, whose two bytes are a name, and compounds.
    Kind: KindRow {
        /// The first byte of the record.
        number: u8,
        /// The word of the notation.
        word: &'static str,
        /// The kind of the inverse, for a key that has one.
        inverse: Option<Kind>,
        /// The rule that builds the compound from the terms that the two bytes number, or the
        /// first of them: the rule's operands.
        rule: Option<Rule>,
        /// The kinds that the second of these terms may have, where it is a key. What may be a
        /// key of one kind of compound is none of another.
        keys: &'static [Kind],
    }
    Plain   { number: 1, word: "plain",   inverse: None,                rule: None, keys: &[] }
    Public  { number: 2, word: "public",  inverse: Some(Kind::Private), rule: None, keys: &[] }
    Private { number: 3, word: "private", inverse: Some(Kind::Public),  rule: None, keys: &[] }
    Pair    { number: 4, word: Rule::Pair.word(), inverse: None, rule: Some(Rule::Pair), keys: &[] }
    Enc     { number: 5, word: Rule::Enc.word(),  inverse: None, rule: Some(Rule::Enc),
              keys: &[Kind::Plain, Kind::Hash] }
    Enca    { number: 6, word: Rule::Enca.word(), inverse: None, rule: Some(Rule::Enca),
              keys: &[Kind::Public, Kind::Private] }
    Hash    { number: 7, word: Rule::Hash.word(), inverse: None, rule: Some(Rule::Hash), keys: &[] }
}

/// What stands for the number of a term's inverse where none is listed. No term has this number.
pub const NO_INVERSE: u8 = 255;

impl Kind {
    pub fn from_number(number: u8) -> Option<Kind> {
        Kind::ALL.into_iter().find(|kind| kind.number() == number)
    }

    /// The kind of the compounds that the rule builds.
    pub fn built_by(rule: Rule) -> Option<Kind> {
        Kind::ALL.into_iter().find(|kind| kind.rule() == Some(rule))
    }

    /// The kind of the compounds that the rule builds or takes apart.
    pub fn handled_by(rule: Rule) -> Option<Kind> {
        Kind::built_by(rule.takes().map_or(rule, |taking| taking.from))
    }

    /// The kind of the compounds of which a term of this kind may be the key.
    pub fn locked_by(key: Kind) -> Option<Kind> {
        Kind::ALL.into_iter().find(|kind| kind.keys().contains(&key))
    }

    pub fn is_atom(self) -> bool {
        self.rule().is_none()
    }

    pub fn atoms() -> Vec<Kind> {
        Kind::ALL.into_iter().filter(|kind| kind.is_atom()).collect()
    }

    /// The kinds of which a term may be a key.
    pub fn locking() -> Vec<Kind> {
        Kind::ALL.into_iter().filter(|&kind| Kind::locked_by(kind).is_some()).collect()
    }

    /// The kinds of compound, each with the rule that builds it.
    pub fn compounds() -> Vec<(Kind, Rule)> {
        Kind::ALL.into_iter().filter_map(|kind| Some((kind, kind.rule()?))).collect()
    }

    /// The kinds of key that have an inverse, each with the kind of the inverse.
    pub fn inverses() -> Vec<(Kind, Kind)> {
        Kind::ALL.into_iter().filter_map(|kind| Some((kind, kind.inverse()?))).collect()
    }
}
