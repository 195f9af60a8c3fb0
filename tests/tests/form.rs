//! The reference's writing of submissions from the bodies of forms: M1's with something changed.

use checker_tests::examples::submission;
use checker_tests::page::called;
use checker_tests::reference::contents::{self, BodyBytes};
use checker_tests::reference::{check, write, Refusal, REFUSAL};
use checker_tests::tables::{Body, Reason, LONGEST_PROGRAM, LONGEST_SUBMISSION};

const TERMS: [u8; 9] = [1, 0, 1, 1, 0, 2, 5, 0, 1];
const KNOWLEDGE: [u8; 2] = [0, 2];
const DERIVATION: [u8; 4] = [4, 2, 1, 0];
const CLAIM: [u8; 4] = [1, 0, b'b', 0];

const M1: BodyBytes = [&TERMS, &KNOWLEDGE, &DERIVATION, &CLAIM];

/// What write answers on a page of this length, and the page's first bytes: those that it has to
/// write, or none where it refuses. All the others are as before.
fn written(bodies: BodyBytes, page: usize) -> (u32, Vec<u8>) {
    called(page, usize::from, |page| write(bodies, page))
}

/// What write answers on a page on which every submission has room.
fn answer(bodies: BodyBytes) -> u32 {
    written(bodies, LONGEST_SUBMISSION).0
}

/// So many records in each body.
fn answer_to_counts(counts: [usize; Body::ALL.len()]) -> u32 {
    let bodies = Body::ALL.map(|body| vec![7; counts[body as usize] * body.record()]);
    answer(bodies.each_ref().map(Vec::as_slice))
}

#[test]
fn m1_is_written_from_its_bodies() {
    let m1 = submission("M1");
    for longer in [0, 1, 5, LONGEST_SUBMISSION, 65_536] {
        assert_eq!(written(M1, m1.len() + longer), (35, m1.clone()));
    }
}

#[test]
fn a_page_that_is_too_short_is_refused_with_the_length() {
    for page in [0, 1, 15, 16, 17, 34] {
        assert_eq!(written(M1, page), (11 * REFUSAL + 35, vec![]), "{page}");
    }
}

#[test]
fn knowledge_and_derivation_may_be_empty() {
    let [terms, _, _, claim] = M1;
    let expected =
        [&[b'T', 3, 0, 16, b'K', 0, 0, 25, b'D', 0, 0, 25, b'V', 1, 0, 25], terms, claim].concat();
    assert_eq!(written([terms, &[], &[], claim], 29), (29, expected));
    assert_eq!(answer([&[], &[], &[], &[]]), 2 * REFUSAL);
    assert_eq!(answer([terms, &[], &[], &[]]), 2 * REFUSAL + 3);
}

#[test]
fn ragged_bodies() {
    let [terms, knowledge, derivation, claim] = M1;
    let [more_terms, more_derivation, more_claim] =
        [terms, derivation, claim].map(|body| [body, &[0]].concat());
    let ragged = [
        [&terms[..8], knowledge, derivation, claim],
        [&terms[..1], knowledge, derivation, claim],
        [&more_terms, knowledge, derivation, claim],
        [terms, knowledge, &derivation[..1], claim],
        [terms, knowledge, &more_derivation, claim],
        [terms, knowledge, derivation, &claim[..3]],
        [terms, knowledge, derivation, &more_claim],
        [&more_terms, knowledge, &more_derivation, &more_claim],
    ];
    for bodies in ragged {
        assert_eq!(answer(bodies), 14 * REFUSAL, "{bodies:?}");
        assert_eq!(written(bodies, 0).0, 14 * REFUSAL, "{bodies:?}");
    }
}

#[test]
fn raggedness_of_all_bodies_is_tried_before_the_counts() {
    let [terms, knowledge, derivation, claim] = M1;
    assert_eq!(answer([&[], knowledge, derivation, &claim[..2]]), 14 * REFUSAL);
    assert_eq!(answer([&[0; 753], &[0; 65], &[0; 5], claim]), 14 * REFUSAL);
    assert_eq!(answer([terms, &[0; 65], derivation, &[0; 9]]), 14 * REFUSAL);
}

#[test]
fn counts_are_tried_before_the_page() {
    let [_, knowledge, derivation, claim] = M1;
    assert_eq!(written([&[], knowledge, derivation, claim], 0).0, 2 * REFUSAL);
    assert_eq!(written([&[0; 753], knowledge, derivation, claim], 769).0, 2 * REFUSAL);
}

#[test]
fn counts_up_to_the_limits() {
    assert_eq!(LONGEST_SUBMISSION, 1346);
    assert_eq!(answer_to_counts([250, 64, 128, 1]), 1346);
    assert_eq!(answer_to_counts([1, 0, 0, 1]), 23);
    for (counts, place) in [
        ([0, 0, 0, 0], 0),
        ([251, 65, 129, 2], 0),
        ([250, 65, 129, 2], 1),
        ([250, 64, 129, 2], 2),
        ([250, 64, 128, 2], 3),
        ([250, 64, 128, 0], 3),
    ] {
        assert_eq!(answer_to_counts(counts), 2 * REFUSAL + place, "{counts:?}");
    }
}

/// Kept in one byte or in two, these counts and lengths would be those of M1.
#[test]
fn counts_do_not_wrap() {
    let m1 = [3, 2, 1, 1];
    assert_eq!(answer_to_counts(m1), 35);
    for over in [256, 65_536, 65_536 / 4, 70_000, 1 << 20] {
        for place in 0..m1.len() {
            let mut counts = m1;
            counts[place] += over;
            assert_eq!(answer_to_counts(counts), 2 * REFUSAL + place as u32, "{counts:?}");
        }
    }
}

#[test]
fn bad_records_are_written_and_read_again() {
    let [terms, derivation, claim] = [[0xFF; 9], [0xEE; 9], [0xDD; 9]];
    let bodies: BodyBytes = [&terms, &[9, 9, 9], &derivation[..8], &claim[..4]];
    let (answer, submission) = written(bodies, 40);
    assert_eq!(answer, 40);
    assert_eq!(contents::bodies(&submission), Ok(bodies));
    let refusal = Refusal { reason: Reason::Term, place: 0 };
    assert_eq!(check(&submission, &mut [0; LONGEST_PROGRAM]), Err(refusal));
}
