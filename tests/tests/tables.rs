//! The tables: what names a row names no other, and samples that are to be refused are in no table.

use std::collections::HashSet;
use std::fmt::Debug;
use std::hash::Hash;

use checker_tests::tables::{
    unclaimed, Body, Call, Claimed, Companion, Deducible, Kind, Opener, Reason, Rule, SecondWay,
    Test, Way, IN_KNOWLEDGE, SHORTEST_SHEET,
};

fn assert_distinct<T: Eq + Hash + Debug>(column: impl IntoIterator<Item = T>) {
    let mut seen = HashSet::new();
    for value in column {
        let shown = format!("{value:?}");
        assert!(seen.insert(value), "{shown} twice");
    }
}

#[test]
fn a_row_has_its_own_number_letter_and_word() {
    assert_distinct(Body::ALL.map(Body::letter));
    assert_distinct(Body::ALL.map(Body::word));
    assert_distinct(Kind::ALL.map(Kind::number));
    assert_distinct(Kind::ALL.map(Kind::word));
    assert_distinct(Rule::ALL.map(Rule::number));
    assert_distinct(Rule::ALL.map(Rule::word));
    assert_distinct(Way::ALL.map(Way::letter));
    assert_distinct(Test::ALL.map(Test::letter));
    assert_distinct(Test::ALL.map(Test::word));
    assert_distinct(Reason::ALL.map(Reason::number));
    assert_distinct(Reason::ALL.map(Reason::word));
    assert_distinct(Call::ALL.map(Call::word));
}

#[test]
fn the_columns_agree() {
    for (kind, inverse) in Kind::inverses() {
        assert!(kind.is_atom() && inverse.inverse() == Some(kind), "{kind:?}");
    }
    for (kind, rule) in Kind::compounds() {
        assert!(rule.builds() && Kind::built_by(rule) == Some(kind), "{kind:?}");
        assert!(kind.keys().is_empty() || rule.operands() == 2, "{kind:?}");
    }
    assert_distinct(Kind::ALL.iter().flat_map(|kind| kind.keys()));
    for (rule, taking) in Rule::takings() {
        assert!(taking.from.builds() && taking.part < taking.from.operands(), "{rule:?}");
        let keys = Kind::handled_by(rule).expect("what it takes apart").keys();
        let fits = match taking.opener {
            Opener::Nothing => rule.operands() == 1 && keys.is_empty(),
            Opener::Key => rule.operands() == 2 && !keys.is_empty(),
            Opener::InverseKey => {
                rule.operands() == 2 && keys.iter().all(|key| key.inverse().is_some())
            }
        };
        assert!(fits, "{rule:?}");
    }
    for way in Way::ALL {
        let guesses = way.guesses();
        let is_guess = |kind: &Kind| match way.claimed() {
            Claimed::Deducible(Deducible::Inverse) => kind.inverse().is_some(),
            _ => true,
        };
        let kinds: Vec<Kind> = Kind::atoms().into_iter().filter(is_guess).collect();
        assert_eq!(guesses, kinds, "{way:?}");
        let is_verifier = matches!(way.claimed(), Claimed::Verifier(_));
        assert_eq!([way.knows_guess(), way.may_be_entry()], [is_verifier, !is_verifier], "{way:?}");
        let (companion, test) = match way.claimed() {
            Claimed::Verifier(SecondWay::AnotherStep) => (Companion::Step, Test::Equal),
            Claimed::Verifier(SecondWay::Inverse) => (Companion::Term, Test::HasInverse),
            Claimed::Deducible(Deducible::Inverse) => (Companion::Zero, Test::HasInverse),
            _ => (Companion::Zero, Test::Equal),
        };
        assert!(way.companion() == companion && way.test() == test, "{way:?}");
    }
    assert!(usize::from(IN_KNOWLEDGE) >= Body::Derivation.most());
    assert_eq!(SHORTEST_SHEET, Body::Derivation.record() * Body::Terms.most());
    for reason in Reason::ALL {
        assert!(Call::ALL.iter().any(|call| call.refusals().contains(&reason)), "{reason:?}");
    }
}

#[test]
fn unclaimed_samples_are_in_no_table() {
    assert!(unclaimed::KINDS.iter().all(|&number| Kind::from_number(number).is_none()));
    assert!(unclaimed::RULES.iter().all(|&number| Rule::from_number(number).is_none()));
    assert!(unclaimed::WAYS.iter().all(|&letter| Way::from_letter(letter).is_none()));
    assert!(unclaimed::TESTS.iter().all(|&letter| Test::from_letter(letter).is_none()));
}
