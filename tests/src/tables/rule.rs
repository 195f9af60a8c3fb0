//! The rules of the Dolev-Yao steps, which are those of the machine's instructions.

table! {
    /// The rules.
    Rule: RuleRow {
        number: u8,
        word: &'static str,
        /// How many premises a step has, and the rule's word operands.
        operands: usize,
        /// What the rule takes apart. A rule that takes nothing apart concludes its own word over
        /// its premises.
        takes: Option<Taking>,
    }
    Pair { number: 0, word: "pair", operands: 2, takes: None }
    Fst  { number: 1, word: "fst",  operands: 1, takes: part(0, Rule::Pair, Opener::Nothing) }
    Snd  { number: 2, word: "snd",  operands: 1, takes: part(1, Rule::Pair, Opener::Nothing) }
    Enc  { number: 3, word: "enc",  operands: 2, takes: None }
    Dec  { number: 4, word: "dec",  operands: 2, takes: part(0, Rule::Enc, Opener::Key) }
    Enca { number: 5, word: "enca", operands: 2, takes: None }
    Deca { number: 6, word: "deca", operands: 2, takes: part(0, Rule::Enca, Opener::InverseKey) }
    Hash { number: 7, word: "hash", operands: 1, takes: None }
}

/// What a rule takes out of its first premise.
#[derive(Clone, Copy)]
pub struct Taking {
    /// Which operand of the premise is concluded.
    pub part: usize,
    /// The rule whose word the premise is.
    pub from: Rule,
    /// What the second premise must be.
    pub opener: Opener,
}

/// What opens a term beside the term itself: nothing, its second operand, or the inverse of that.
#[derive(Clone, Copy)]
pub enum Opener {
    Nothing,
    Key,
    InverseKey,
}

const fn part(part: usize, from: Rule, opener: Opener) -> Option<Taking> {
    Some(Taking { part, from, opener })
}

impl Rule {
    pub fn from_number(number: u8) -> Option<Rule> {
        Rule::ALL.into_iter().find(|rule| rule.number() == number)
    }

    pub fn from_word(word: &str) -> Option<Rule> {
        Rule::ALL.into_iter().find(|rule| rule.word() == word)
    }

    /// Whether the rule concludes a compound of its premises.
    pub fn builds(self) -> bool {
        self.takes().is_none()
    }

    /// The rules that take something apart, each with what it takes.
    pub fn takings() -> impl Iterator<Item = (Rule, Taking)> {
        Rule::ALL.into_iter().filter_map(|rule| Some((rule, rule.takes()?)))
    }

    /// The rules that take apart what this one builds; none for a one-way function.
    pub fn takers(self) -> impl Iterator<Item = (Rule, Taking)> {
        Rule::takings().filter(move |(_, taking)| taking.from == self)
    }
}
