//! The comparison takes what the checker answers, and tells each change of it.

use checker_tests::generate::{Pair, Source};
use checker_tests::notation::assemble;
use checker_tests::reference::REFUSAL;
use checker_tests::tables::LONGEST_SUBMISSION;

use super::compare_joins;
use crate::answers::{Joined, Pooled, PAINT};
use crate::tally::Tally;

/// Refused with 9, since nobody has heard n in the clear.
const FIRST: &str = "
terms
  n
  g
  e = enc(n, g)
  h = hash(g)
knowledge
  e
derivation
  0: n = dec(e, g)
claim
  guess g
  step 0
  way b
";

/// Lists three of these terms under other numbers, and knows n.
const SECOND: &str = "
terms
  k
  g
  h = hash(g)
  n
  p = pair(n, k)
  hk = enc(p, h)
knowledge
  hk
  n
derivation
claim
  guess g
  step knowledge
  way k
";

/// The terms of the pool.
const POOL: usize = 7;

/// Its length: contents, terms, three entries, a step and a claim.
const LENGTH: usize = 16 + 3 * POOL + 3 + 4 + 4;

fn pair(first: &str, second: &str, page: usize) -> Pair {
    let [first, second] =
        [first, second].map(|text| assemble(text).expect("a text without a fault"));
    Pair { first, second, page: vec![PAINT; page], is_asked: true }
}

/// Compares what the checker answers for this pair, after a change.
fn compared(pair: Pair, change: impl FnOnce(&mut Joined)) -> Result<(), String> {
    let mut input = Source::new(1).input(pair.first.clone());
    let mut found = Joined::of(&pair);
    change(&mut found);
    input.pairs = vec![pair];
    compare_joins(&input, &[found], &mut Tally::default())
}

/// Fails unless the comparison tells the change by these words.
fn told(words: &str, pair: Pair, change: impl FnOnce(&mut Joined)) {
    let result = compared(pair, change);
    let is_told = result.as_ref().is_err_and(|difference| difference.contains(words));
    assert!(is_told, "{words}: {result:?}");
}

/// The same for the pool of the two, on a page that is longer by a byte.
fn told_of_pool(words: &str, change: impl FnOnce(&mut Pooled)) {
    told(words, pair(FIRST, SECOND, LENGTH + 1), |found| {
        change(found.pooled.as_mut().expect("there is a pool"));
    });
}

fn bad(text: &str) -> String {
    text.replace("guess g", "guess h")
}

/// A text with the knowledge and the terms of the first, and so many more.
fn many(terms: usize) -> String {
    let atoms: String = (1..=terms).map(|number| format!("  plain {number}\n")).collect();
    FIRST.replace("knowledge\n", &format!("{atoms}knowledge\n"))
}

#[test]
fn what_the_checker_answers_is_taken() {
    for page in [0, 1, LENGTH - 1, LENGTH, LENGTH + 1, LONGEST_SUBMISSION, 65_536] {
        for (first, second) in [(FIRST, SECOND), (SECOND, FIRST), (FIRST, FIRST)] {
            assert_eq!(compared(pair(first, second, page), |_| ()), Ok(()), "{page}");
            assert_eq!(compared(pair(&bad(first), second, page), |_| ()), Ok(()), "{page}");
            assert_eq!(compared(pair(first, &bad(second), page), |_| ()), Ok(()), "{page}");
        }
        assert_eq!(compared(pair(&many(240), SECOND, page), |_| ()), Ok(()), "{page}");
        assert_eq!(compared(pair(&many(246), SECOND, page), |_| ()), Ok(()), "{page}");
    }
    let found = Joined::of(&pair(FIRST, SECOND, LENGTH));
    assert_eq!(found.answer, LENGTH as u32);
    assert_eq!(found.pooled.expect("there is a pool").checks, [9 * REFUSAL, 1]);
}

#[test]
fn another_answer_is_told() {
    let overfull = many(246);
    let [bad_first, bad_second] = [FIRST, SECOND].map(bad);
    let others = [
        0,
        LENGTH as u32,
        LENGTH as u32 + 1,
        3 * REFUSAL,
        5 * REFUSAL,
        5 * REFUSAL + 1,
        11 * REFUSAL,
        11 * REFUSAL + LENGTH as u32,
        20 * REFUSAL,
        20 * REFUSAL + 251,
    ];
    for (first, second, page, expected) in [
        (FIRST, SECOND, LENGTH, LENGTH.to_string()),
        (FIRST, SECOND, LENGTH - 1, format!("refused 11 {LENGTH}")),
        (FIRST, SECOND, 0, format!("refused 11 {LENGTH}")),
        (&bad_first, SECOND, LENGTH, "refused 5 0".to_string()),
        (FIRST, &bad_second, LENGTH, "refused 5 0".to_string()),
        (FIRST, &bad_second, 0, "refused 5 0".to_string()),
        (&overfull, SECOND, LONGEST_SUBMISSION, "refused 20 0".to_string()),
        (&overfull, SECOND, 0, "refused 20 0".to_string()),
    ] {
        for answer in others {
            let shown = crate::answer(answer);
            if shown != expected {
                let words = format!("{expected} and {shown}");
                told(&words, pair(first, second, page), |found| found.answer = answer);
            }
        }
    }
}

#[test]
fn another_byte_is_told() {
    for at in 0..LENGTH + 2 {
        let pair = pair(FIRST, SECOND, LENGTH + 2);
        told("join with a page", pair, |found| found.page[at] ^= 1);
    }
    let overfull = many(246);
    let [bad_first, bad_second] = [FIRST, SECOND].map(bad);
    for (first, second, page) in [
        (FIRST, SECOND, LENGTH - 1),
        (&bad_first, SECOND, LENGTH),
        (FIRST, &bad_second, LENGTH),
        (&overfull, SECOND, LONGEST_SUBMISSION),
    ] {
        for at in [0, 16, page - 1] {
            told("A5", pair(first, second, page), |found| found.page[at] ^= 1);
        }
    }
}

#[test]
fn another_pool_of_the_pool_is_told() {
    for (at, words) in [
        (0, "the first, joined with itself"),
        (1, "the pool, joined with the first"),
        (2, "the pool, joined with the second"),
    ] {
        told_of_pool(words, |found| found.again[at] = None);
        let last = if at == 0 { 16 + 12 + 1 + 4 + 4 } else { LENGTH } - 1;
        for byte in [0, 1, 20, last] {
            told_of_pool(words, |found| found.again[at].as_mut().expect("written")[byte] ^= 1);
        }
        told_of_pool(words, |found| found.again[at].as_mut().expect("written").push(0));
    }
    let nothing = |found: &mut Joined| found.pooled = None;
    told("nothing is asked", pair(FIRST, SECOND, LENGTH), nothing);
}

#[test]
fn another_verdict_is_told() {
    for other in [0, 2, 8 * REFUSAL, 9 * REFUSAL, 3 * REFUSAL + 4] {
        let words = format!("check of the pool: 1 and {}", crate::answer(other));
        told_of_pool(&words, |found| found.checks[1] = other);
    }
    for other in [1, 9 * REFUSAL + 1, 8 * REFUSAL, 5 * REFUSAL] {
        let words = format!("check of the first: refused 9 0 and {}", crate::answer(other));
        told_of_pool(&words, |found| found.checks[0] = other);
    }
}

#[test]
fn another_deducible_term_is_told() {
    for (of, (what, terms)) in [("first", 4), ("second", 6), ("pool", POOL)].into_iter().enumerate()
    {
        for term in 0..terms {
            let change = |found: &mut Pooled| {
                found.deducible.as_mut().expect("it is asked")[of][term] ^= 1;
            };
            told_of_pool(&format!("deducible {term} in the {what}"), change);
        }
    }
}
