//! The reference's inverses of listed keys.

use checker_tests::bodies::Bodies;
use checker_tests::examples::submission;
use checker_tests::generate::shapes::{self, Naming};
use checker_tests::page::called;
use checker_tests::reference::{inverses, REFUSAL};
use checker_tests::tables::{Body, Kind};

/// What inverses answers on a page of this length, and the page's first bytes: those that it has to
/// write, or none where it refuses. All the others are as before.
fn found(submission: &[u8], page: usize) -> (u32, Vec<u8>) {
    called(page, usize::from, |page| inverses(submission, page))
}

/// The bytes for these terms, with nothing known, no step and an empty claim.
fn numbers(terms: &[[u8; 3]]) -> Vec<u8> {
    let bodies = Bodies { terms: terms.to_vec(), ..Bodies::default() };
    let (answer, numbers) = found(&bodies.submission(), terms.len());
    assert_eq!(answer, terms.len() as u32);
    numbers
}

/// What inverses answers to M8 with changed bodies, on a page that is long enough. Its terms are g,
/// public k, private k and enc(public k, g); its knowledge 3 and 2.
fn answer_to_bodies(change: impl Fn(&mut Bodies)) -> u32 {
    let mut bodies = Bodies::read(&submission("M8")).unwrap();
    change(&mut bodies);
    found(&bodies.submission(), Body::Terms.most()).0
}

#[test]
fn the_inverses_of_m1_and_m8() {
    assert_eq!(found(&submission("M1"), 3), (3, vec![255; 3]));
    for page in [4, 5, 250, 251, 256, 259, 65_536, 65_539] {
        assert_eq!(found(&submission("M8"), page), (4, vec![255, 2, 1, 255]), "{page}");
    }
}

#[test]
fn a_page_that_is_too_short_is_refused_with_the_count_of_terms() {
    for page in 0..4 {
        assert_eq!(found(&submission("M8"), page), (11 * REFUSAL + 4, vec![]), "{page}");
    }
}

#[test]
fn keys_of_one_name_are_inverse_whichever_comes_first() {
    assert_eq!(numbers(&[[2, 7, 9], [3, 7, 9]]), [1, 0]);
    assert_eq!(numbers(&[[3, 7, 9], [2, 7, 9]]), [1, 0]);
    assert_eq!(numbers(&[[3, 0, 1], [2, 0, 2], [3, 0, 2], [2, 0, 1]]), [3, 2, 1, 0]);
}

#[test]
fn a_key_may_be_alone() {
    assert_eq!(numbers(&[[2, 0, 0]]), [255]);
    assert_eq!(numbers(&[[3, 255, 255]]), [255]);
    assert_eq!(numbers(&[[2, 1, 5], [2, 2, 5], [2, 1, 6]]), [255; 3]);
    assert_eq!(numbers(&[[3, 1, 5], [3, 2, 5], [3, 1, 6]]), [255; 3]);
}

#[test]
fn both_bytes_of_the_names_count() {
    assert_eq!(numbers(&[[2, 1, 5], [3, 2, 5], [3, 1, 6], [3, 5, 1]]), [255; 4]);
    assert_eq!(numbers(&[[3, 1, 5], [2, 2, 5], [2, 1, 6], [2, 1, 5]]), [3, 255, 255, 0]);
}

/// Plain atoms of a key's name, and compounds whose operands a name could be.
#[test]
fn only_keys_have_an_inverse() {
    assert_eq!(numbers(&[[1, 0, 1], [2, 0, 1], [1, 0, 2], [3, 0, 2]]), [255; 4]);
    assert_eq!(numbers(&[[1, 0, 1], [2, 0, 1], [3, 0, 1]]), [255, 2, 1]);
    let operands = [[1, 9, 9], [2, 9, 9]];
    for compound in [[4, 0, 1], [5, 0, 0], [6, 0, 1], [7, 1, 0]] {
        let [_, x, y] = compound;
        let keys = [[2, x, y], [3, x, y]];
        let keys_first = [&operands[..], &keys, &[compound]].concat();
        assert_eq!(numbers(&keys_first), [255, 255, 3, 2, 255], "{compound:?}");
        let keys_last = [&operands[..], &[compound], &keys].concat();
        assert_eq!(numbers(&keys_last), [255, 255, 255, 4, 3], "{compound:?}");
        assert_eq!(numbers(&keys_last[..4]), [255; 4], "{compound:?}");
    }
}

#[test]
fn checks_1_to_4_come_first_and_no_others() {
    assert_eq!(found(&[], 0).0, REFUSAL);
    assert_eq!(found(&submission("M8")[1..], 9).0, REFUSAL);
    assert_eq!(answer_to_bodies(|bodies| bodies.terms.clear()), 2 * REFUSAL);
    assert_eq!(answer_to_bodies(|bodies| bodies.terms[2] = bodies.terms[1]), 3 * REFUSAL + 2);
    assert_eq!(answer_to_bodies(|bodies| bodies.knowledge[1] = 4), 4 * REFUSAL + 1);
    assert_eq!(answer_to_bodies(|bodies| bodies.derivation = vec![[255; 4]; 2]), 4);
    assert_eq!(answer_to_bodies(|bodies| bodies.claim = [255; 4]), 4);
}

#[test]
fn the_most_keys() {
    let [keys, inverse_keys]: [Vec<u8>; 2] = [(0..125).collect(), (125..250).collect()];
    for naming in [Naming::BothBytes, Naming::OneLowByte] {
        let pairs = shapes::atoms(&[Kind::Public, Kind::Private], naming);
        let expected = [&inverse_keys[..], &keys].concat();
        assert_eq!(found(&pairs.submission(), 250), (250, expected));
        let alone = shapes::atoms(&[Kind::Private], naming);
        assert_eq!(found(&alone.submission(), 250), (250, vec![255; 250]));
        assert_eq!(found(&alone.submission(), 249), (11 * REFUSAL + 250, vec![]));
    }
}
