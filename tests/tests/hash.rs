//! The reference on hashes: kind 7 and rule 7, each reading of the request by itself.

use checker_tests::bodies::{self, Bodies};
use checker_tests::notation::assemble;
use checker_tests::reference::{
    code, deducible, is_wrong_guess, needed_keys, program, run, verdict, REFUSAL,
};
use checker_tests::tables::Kind;

/// A message under a hash of the guess and a nonce is known, and so is what it says. Term 0, which
/// the unused bytes of a hash would number, is known to nobody.
const LOGIN: &str = "
terms
  z
  n
  g
  gn = pair(g, n)
  h = hash(gn)
  m
  mh = enc(m, h)
knowledge
  n
  m
  mh
derivation
  0: gn = pair(g, n)
  1: h = hash(gn)
  2: m = dec(mh, h)
claim
  guess g
  step 2
  way b
";

/// The numbers of the terms.
const Z: u8 = 0;
const N: u8 = 1;
const G: u8 = 2;
const GN: u8 = 3;
const H: u8 = 4;
const M: u8 = 5;
const MH: u8 = 6;

/// The number of the kind, and of the rule.
const HASH: u8 = 7;

fn login() -> Bodies {
    Bodies::read(&assemble(LOGIN).unwrap()).unwrap()
}

/// The verdict on the login with changed bodies.
fn verdict_on(change: impl Fn(&mut Bodies)) -> String {
    let mut bodies = login();
    change(&mut bodies);
    verdict(&bodies.submission())
}

/// The first line of that verdict.
fn first_line_on(change: impl Fn(&mut Bodies)) -> String {
    verdict_on(change).lines().next().unwrap().to_string()
}

/// Which of the login's terms are deducible from this knowledge.
fn deducible_from(knowledge: &[u8]) -> Vec<u8> {
    deducible_in(&Bodies { knowledge: knowledge.to_vec(), ..login() })
}

fn deducible_in(bodies: &Bodies) -> Vec<u8> {
    let submission = bodies.submission();
    let count = bodies.terms.len() as u8;
    (0..count).filter(|&number| deducible(&submission, number) == Ok(true)).collect()
}

#[test]
fn the_login_is_accepted_and_prints_a_hash_with_one_register() {
    let expected = "accepted 3\nr4 = pair r3 r0\nr5 = hash r4\nr6 = dec r2 r5\nsignal r6 = r1\n";
    assert_eq!(verdict_on(|_| ()), expected);
    let page = [3, 0, 3, 0, 7, 4, 0, 4, 2, 5, b'=', 6, 1];
    assert_eq!(program(&login().submission()).unwrap(), page);
}

#[test]
fn a_record_has_an_earlier_term_and_0() {
    let records = [
        ([HASH, M, 0], "accepted 3"),
        ([HASH, H, 0], "accepted 3"),
        ([HASH, Z, 0], "accepted 3"),
        ([HASH, M, 1], "refused 3 7"),
        ([HASH, M, M], "refused 3 7"),
        ([HASH, M, 255], "refused 3 7"),
        ([HASH, 7, 0], "refused 3 7"),
        ([HASH, 8, 0], "refused 3 7"),
        ([HASH, 255, 0], "refused 3 7"),
        ([HASH, GN, 0], "refused 3 7"),
    ];
    for (record, expected) in records {
        assert_eq!(first_line_on(|bodies| bodies.terms.push(record)), expected, "{record:?}");
    }
    assert_eq!(first_line_on(|bodies| bodies.terms[0] = [HASH, 0, 0]), "refused 3 0");
}

#[test]
fn a_hash_is_a_key_of_kind_5_only() {
    for (kind, key, expected) in [
        (5, H, "accepted 3"),
        (5, M, "accepted 3"),
        (5, GN, "refused 3 7"),
        (5, MH, "refused 3 7"),
        (6, H, "refused 3 7"),
    ] {
        let found = first_line_on(|bodies| bodies.terms.push([kind, N, key]));
        assert_eq!(found, expected, "{kind} {key}");
    }
}

#[test]
fn a_hash_is_no_guess() {
    assert_eq!(verdict_on(|bodies| bodies.claim[0] = H), "refused 5 0\n");
}

#[test]
fn a_step_concludes_the_hash_of_its_one_premise() {
    let steps = [
        ([HASH, GN, 0, H], "accepted 3"),
        ([HASH, GN, 1, H], "refused 6 1"),
        ([HASH, GN, GN, H], "refused 6 1"),
        ([HASH, GN, 255, H], "refused 6 1"),
        ([HASH, N, 0, H], "refused 6 1"),
        ([HASH, 7, 0, H], "refused 6 1"),
        ([HASH, GN, 0, 7], "refused 6 1"),
        ([HASH, GN, 0, GN], "refused 6 1"),
        ([HASH, H, 0, GN], "refused 6 1"),
        ([8, GN, 0, H], "refused 6 1"),
    ];
    for (step, expected) in steps {
        assert_eq!(first_line_on(|bodies| bodies.derivation[1] = step), expected, "{step:?}");
    }
}

#[test]
fn the_premise_has_to_be_known() {
    assert_eq!(verdict_on(|bodies| bodies.derivation.swap(0, 1)), "refused 7 0\n");
}

/// The only step, which verifies, hashes the term, and this hash is known.
fn verified_by_hashing(term: u8) -> String {
    first_line_on(|bodies| {
        bodies.terms.push([HASH, term, 0]);
        bodies.knowledge.push(7);
        bodies.derivation = vec![[HASH, term, 0, 7]];
        bodies.claim[1] = 0;
    })
}

#[test]
fn a_hash_of_the_guess_verifies_it() {
    assert_eq!(verified_by_hashing(G), "accepted 1");
}

/// Term 0 is not deducible, but it is no premise of the step.
#[test]
fn the_0_is_not_in_the_set_of_premises() {
    assert_eq!(verified_by_hashing(N), "refused 8 0");
}

/// The hash is concluded by hashing and by a decryption; a copy of a step is no second way.
#[test]
fn a_hash_may_have_a_second_way() {
    let with_companion = |companion| {
        first_line_on(|bodies| {
            bodies.terms.push([5, H, G]);
            bodies.knowledge.push(7);
            let [pair, hash, _] = bodies.derivation[..] else { panic!("three steps") };
            bodies.derivation = vec![pair, hash, hash, [4, 7, G, H]];
            bodies.claim = [G, 1, b'a', companion];
        })
    };
    assert_eq!(with_companion(2), "refused 9 1");
    assert_eq!(with_companion(3), "accepted 4");
}

#[test]
fn a_hash_has_no_inverse() {
    for companion in [H, GN, G] {
        let found = first_line_on(|bodies| bodies.claim = [G, 1, b'c', companion]);
        assert_eq!(found, "refused 9 1", "{companion}");
    }
}

/// The verifying step undoes the encryption of what it takes apart, but no hash of anything.
#[test]
fn nothing_undoes_a_hash() {
    let undone = verdict_on(|bodies| bodies.derivation.push([3, M, H, MH]));
    assert_eq!(undone, "refused 10 3\n");
    let hashed = first_line_on(|bodies| {
        bodies.terms.extend([[HASH, H, 0], [HASH, M, 0], [HASH, MH, 0]]);
        bodies.derivation.extend([[HASH, H, 0, 7], [HASH, M, 0, 8], [HASH, MH, 0, 9]]);
    });
    assert_eq!(hashed, "accepted 6");
}

#[test]
fn a_hash_can_be_built_and_never_taken_apart() {
    assert_eq!(deducible_from(&[G, N]), [N, G, GN, H]);
    assert_eq!(deducible_from(&[GN]), [N, G, GN, H]);
    assert_eq!(deducible_from(&[H]), [H]);
    assert_eq!(deducible_from(&[H, Z]), [Z, H]);
    assert_eq!(deducible_from(&[Z]), [Z]);
}

/// The key has to be built, known it need not be.
#[test]
fn a_hash_opens_what_it_locks() {
    assert_eq!(deducible_from(&[MH]), [MH]);
    assert_eq!(deducible_from(&[MH, H]), [H, M, MH]);
    assert_eq!(deducible_from(&[MH, GN]), [N, G, GN, H, M, MH]);
    assert_eq!(deducible_from(&[MH, G, N]), [N, G, GN, H, M, MH]);
    assert_eq!(deducible_from(&[MH, G]), [G, MH]);
    assert_eq!(deducible_from(&[MH, N, Z]), [Z, N, MH]);
}

/// Each message gives what the next key is a hash of; a hash of a hash, at the end.
#[test]
fn keys_are_built_from_what_was_opened() {
    let mut bodies = login();
    bodies.terms.extend([[HASH, M, 0], [HASH, 7, 0], [5, G, 8]]);
    bodies.knowledge = vec![9, MH, GN];
    assert_eq!(deducible_in(&bodies), [N, G, GN, H, M, MH, 7, 8, 9]);
    bodies.knowledge = vec![9, MH, N];
    assert_eq!(deducible_in(&bodies), [N, MH, 9]);
    bodies.knowledge = vec![9, M];
    assert_eq!(deducible_in(&bodies), [G, M, 7, 8, 9]);
}

#[test]
fn what_depends_on_a_hash_as_a_key() {
    let needed = |knowledge: &[u8], number| {
        let bodies = Bodies { knowledge: knowledge.to_vec(), ..login() };
        needed_keys(&bodies.submission(), number).unwrap()
    };
    assert_eq!(needed(&[MH, G, N], M), [Kind::Hash]);
    assert_eq!(needed(&[MH, G, N, M], M), []);
    assert_eq!(needed(&[MH, G, N], H), []);
    assert_eq!(needed(&[MH, G], M), []);
}

#[test]
fn a_program_has_one_register_and_0() {
    let submission = login().submission();
    let answer =
        |rule, first, second| code(run(&submission, 9, &[1, rule, first, second, b'=', 4, 4]));
    for first in 0..4 {
        assert_eq!(answer(HASH, first, 0), 1, "{first}");
    }
    for (rule, first, second) in [(HASH, 4, 0), (HASH, 0, 1), (HASH, 0, 255), (8, 0, 0), (8, 0, 1)]
    {
        assert_eq!(answer(rule, first, second), 13 * REFUSAL, "{rule} {first} {second}");
    }
}

/// What is hashed is part of the hash; term 0, which the unused byte would number, is not.
#[test]
fn wrong_guesses_look_into_a_hash() {
    let bodies = Bodies { knowledge: vec![MH], ..login() };
    let submission = bodies.submission();
    let name = |term: u8| bodies::name(bodies.terms[usize::from(term)]);
    assert_eq!(is_wrong_guess(&submission, name(Z)), Ok(true));
    for part in [N, M] {
        assert_eq!(is_wrong_guess(&submission, name(part)), Ok(false), "{part}");
    }
    let mut hashed = bodies.clone();
    hashed.terms.push([HASH, Z, 0]);
    assert_eq!(is_wrong_guess(&hashed.submission(), name(Z)), Ok(true));
    hashed.knowledge.push(7);
    assert_eq!(is_wrong_guess(&hashed.submission(), name(Z)), Ok(false));
}
