//! The comparison takes what the checker answers, and tells each change of it.

use checker_tests::generate::{Sheet, Source};
use checker_tests::notation::assemble;
use checker_tests::reference::REFUSAL;
use checker_tests::tables::SHORTEST_SHEET;

use super::compare_deductions;
use crate::answers::{Deduced, PAINT};
use crate::tally::Tally;

const TEXT: &str = "
terms
  g
  a
  b
  ab = pair(a, b)
  eb = enc(ab, b)
  eg = enc(a, g)
  h = hash(a)
  hh = hash(h)
  hb = hash(b)
knowledge
  b
  eb
  eg
derivation
claim
  guess g
  step 0
  way b
";

const GUESS: u8 = 0;
const KNOWN: u8 = 2;
const ASKED: u8 = 7;

/// The only steps to the term asked for.
const OPEN: [u8; 4] = [4, 4, 2, 3];
const FIRST: [u8; 4] = [1, 3, 0, 1];
const HASH: [u8; 4] = [7, 1, 0, 6];
const LAST: [u8; 4] = [7, 6, 0, 7];

/// Others that can be made, the second of them with the guess.
const BESIDE: [u8; 4] = [7, 2, 0, 8];
const WITH_GUESS: [u8; 4] = [4, 5, 0, 1];

/// Compares what the checker answers for this term, with a page of this length, after a change.
fn compared(term: u8, page: usize, change: impl FnOnce(&mut Deduced)) -> Result<(), String> {
    let submission = assemble(TEXT).expect("a text without a fault");
    let mut input = Source::new(1).input(submission);
    input.sheets = vec![Sheet { term, page: vec![PAINT; page] }];
    let mut found = Deduced::of(&input.submission, &input.sheets[0]);
    change(&mut found);
    compare_deductions(&input, &[found], &mut Tally::default())
}

/// Fails unless the comparison tells the change by these words.
fn told(words: &str, term: u8, page: usize, change: impl FnOnce(&mut Deduced)) {
    let result = compared(term, page, change);
    let is_told = result.as_ref().is_err_and(|difference| difference.contains(words));
    assert!(is_told, "{words}: {result:?}");
}

/// Puts these steps in the place of the checker's.
fn put(found: &mut Deduced, steps: &[[u8; 4]]) {
    let bytes = steps.as_flattened();
    found.page.fill(PAINT);
    found.page[..bytes.len()].copy_from_slice(bytes);
    found.answer = 1 + steps.len() as u32;
}

#[test]
fn what_the_checker_answers_is_taken() {
    for term in (0..12).chain([250, u8::MAX]) {
        for page in [0, SHORTEST_SHEET - 1, SHORTEST_SHEET, SHORTEST_SHEET + 1] {
            assert_eq!(compared(term, page, |_| ()), Ok(()), "{term}, {page}");
        }
    }
    let same = |found: &mut Deduced| put(found, &[OPEN, FIRST, HASH, LAST]);
    assert_eq!(compared(ASKED, SHORTEST_SHEET, same), Ok(()));
}

#[test]
fn other_steps_are_told() {
    for (words, steps) in [
        ("KnownBefore(1)", &[OPEN, OPEN, FIRST, HASH, LAST][..]),
        ("KnownBefore(4)", &[OPEN, FIRST, HASH, LAST, LAST]),
        ("KnownBefore(1)", &[OPEN, [3, 3, 2, 4], FIRST, HASH, LAST]),
        ("KnownBefore(2)", &[OPEN, FIRST, [0, 1, 2, 3], HASH, LAST]),
        ("Unfounded(0)", &[FIRST, OPEN, HASH, LAST]),
        ("Unfounded(2)", &[OPEN, FIRST, LAST, HASH]),
        ("Unfounded(1)", &[OPEN, HASH, LAST]),
        ("Unfounded(0)", &[FIRST, HASH, LAST]),
        ("Unfounded(0)", &[WITH_GUESS, HASH, LAST]),
        ("OtherEnd", &[OPEN, FIRST, HASH]),
        ("OtherEnd", &[OPEN, FIRST, HASH, LAST, BESIDE]),
        ("OtherEnd", &[]),
        ("NotNeeded(0)", &[BESIDE, OPEN, FIRST, HASH, LAST]),
        ("NotNeeded(3)", &[OPEN, FIRST, HASH, BESIDE, LAST]),
        ("NoStep(0)", &[[6, 4, 2, 3], FIRST, HASH, LAST]),
        ("NoStep(0)", &[[4, 4, 1, 3], FIRST, HASH, LAST]),
        ("NoStep(1)", &[OPEN, [2, 3, 0, 1], HASH, LAST]),
        ("NoStep(1)", &[OPEN, [1, 3, 2, 1], HASH, LAST]),
        ("NoStep(1)", &[OPEN, [1, 3, 0, 2], HASH, LAST]),
        ("NoStep(2)", &[OPEN, FIRST, [7, 9, 0, 6], LAST]),
        ("NoStep(3)", &[OPEN, FIRST, HASH, [8, 6, 0, 7]]),
        ("TooMany", &[OPEN; 10]),
    ] {
        told(words, ASKED, SHORTEST_SHEET, |found| put(found, steps));
    }
    for (words, steps) in
        [("KnownBefore(1)", &[OPEN, [2, 3, 0, 2]][..]), ("OtherEnd", &[OPEN, FIRST])]
    {
        told(words, KNOWN, SHORTEST_SHEET, |found| put(found, steps));
    }
}

#[test]
fn another_answer_is_told() {
    for (words, answer) in [
        ("yes and 0", 0),
        ("OtherEnd", 1),
        ("OtherEnd", 4),
        ("NoStep(4)", 6),
        ("yes and 252", 252),
        ("yes and 65535", REFUSAL - 1),
        ("yes and refused 12 0", 12 * REFUSAL),
        ("yes and refused 19 1000", 19 * REFUSAL + 1_000),
    ] {
        told(words, ASKED, SHORTEST_SHEET, |found| found.answer = answer);
    }
    for (term, page, expected) in [
        (GUESS, 1_000, "0"),
        (GUESS, 999, "refused 19 1000"),
        (ASKED, 999, "refused 19 1000"),
        (KNOWN, 0, "refused 19 1000"),
        (9, 0, "refused 12 0"),
        (9, 1_000, "refused 12 0"),
    ] {
        for answer in [0, 1, 2, 5, 12 * REFUSAL, 19 * REFUSAL, 19 * REFUSAL + 1_000, 11 * REFUSAL] {
            let shown = crate::answer(answer);
            if shown != expected {
                let words = format!("{expected} and {shown}");
                told(&words, term, page, |found| found.answer = answer);
            }
        }
    }
    for (term, page) in [(GUESS, 1_000), (ASKED, 1_000), (KNOWN, 999), (9, 0)] {
        told("deducible", term, page, |found| found.deducible ^= 1);
    }
}

#[test]
fn another_byte_is_told() {
    for (term, page, places) in [
        (ASKED, 1_001, &[16, 17, 999, 1_000][..]),
        (KNOWN, 1_000, &[0, 4, 999]),
        (GUESS, 1_000, &[0, 3, 999]),
        (ASKED, 999, &[0, 998]),
        (9, 1_000, &[0, 999]),
    ] {
        for &place in places {
            told("A5", term, page, |found| found.page[place] ^= 1);
        }
    }
}

#[test]
fn another_check_of_the_steps_is_told() {
    for (term, expected, others) in [
        (ASKED, "refused 16 0", &[4, 6 * REFUSAL, 7 * REFUSAL + 3, 2 * REFUSAL + 2][..]),
        (1, "2", &[1, 3, 7 * REFUSAL, 16 * REFUSAL]),
        (KNOWN, "0", &[1, 5 * REFUSAL, 16 * REFUSAL]),
    ] {
        for &other in others {
            let words = format!("{expected} and {}", crate::answer(other));
            told(&words, term, SHORTEST_SHEET, |found| found.again[0].1 = other);
        }
    }
}
