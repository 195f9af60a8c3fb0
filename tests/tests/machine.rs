//! The reference's machine: each reduction, hashes, each test, and terms that are huge as trees.

use checker_tests::notation::assemble;
use checker_tests::reference::run;
use checker_tests::tables::{Rule, Test, MOST_INSTRUCTIONS};

/// Registers r0 to r4 hold x, k, the two keys named a, and the pair of x and k; r5 the guess.
const SUBMISSION: &str = "
terms
  x
  k
  g
  public a
  private a
  xk = pair(x, k)
knowledge
  x
  k
  public a
  private a
  xk
derivation
  0: x = fst(xk)
claim
  guess g
  step 0
  way b
";

const X: u8 = 0;
const K: u8 = 1;
const PUBLIC: u8 = 2;
const PRIVATE: u8 = 3;
const XK: u8 = 4;
const GUESS: u8 = 5;
const FIRST: u8 = 6;

/// The signal of these instructions and this test.
fn signal(instructions: &[(Rule, u8, u8)], test: Test, tested: [u8; 2]) -> bool {
    let mut program = vec![instructions.len() as u8];
    for &(rule, first, second) in instructions {
        program.extend([rule.number(), first, second]);
    }
    program.push(test.letter());
    program.extend(tested);
    run(&assemble(SUBMISSION).unwrap(), 7, &program).unwrap()
}

/// Whether the last result equals the register.
fn results_in(instructions: &[(Rule, u8, u8)], register: u8) -> bool {
    let last = FIRST + instructions.len() as u8 - 1;
    signal(instructions, Test::Equal, [last, register])
}

#[test]
fn parts_of_a_pair() {
    assert!(results_in(&[(Rule::Fst, XK, 0)], X));
    assert!(results_in(&[(Rule::Snd, XK, 0)], K));
    assert!(!results_in(&[(Rule::Fst, X, 0)], X));
}

#[test]
fn a_pair_of_parts() {
    let parts = |first, second| [(first, GUESS, 0), (second, GUESS, 0), (Rule::Pair, 6, 7)];
    assert!(results_in(&parts(Rule::Fst, Rule::Snd), GUESS));
    assert!(!results_in(&parts(Rule::Snd, Rule::Fst), GUESS));
    let of_two_terms = [(Rule::Fst, GUESS, 0), (Rule::Snd, X, 0), (Rule::Pair, 6, 7)];
    assert!(!results_in(&of_two_terms, GUESS) && !results_in(&of_two_terms, X));
}

#[test]
fn symmetric_encryption_cancels_under_any_key() {
    for (rule, opposite) in [(Rule::Enc, Rule::Dec), (Rule::Dec, Rule::Enc)] {
        for key in [K, PUBLIC, XK, GUESS] {
            assert!(results_in(&[(rule, X, key), (opposite, FIRST, key)], X));
        }
        assert!(!results_in(&[(rule, X, PUBLIC), (opposite, FIRST, PRIVATE)], X));
    }
}

#[test]
fn asymmetric_encryption_cancels_under_inverse_keys() {
    for (rule, opposite) in [(Rule::Enca, Rule::Deca), (Rule::Deca, Rule::Enca)] {
        for (key, inverse) in [(PUBLIC, PRIVATE), (PRIVATE, PUBLIC)] {
            assert!(results_in(&[(rule, X, key), (opposite, FIRST, inverse)], X));
            assert!(!results_in(&[(rule, X, key), (opposite, FIRST, key)], X));
        }
        assert!(!results_in(&[(rule, X, K), (opposite, FIRST, K)], X));
    }
}

#[test]
fn schemes_do_not_mix() {
    assert!(!results_in(&[(Rule::Enc, X, K), (Rule::Deca, FIRST, K)], X));
    assert!(!results_in(&[(Rule::Enca, X, PUBLIC), (Rule::Dec, FIRST, PUBLIC)], X));
}

#[test]
fn equal_terms_have_equal_hashes() {
    for register in [X, PUBLIC, XK, GUESS] {
        let hashes = [(Rule::Hash, register, 0), (Rule::Hash, register, 0)];
        assert!(results_in(&hashes, FIRST));
        assert!(!results_in(&[hashes[0], (Rule::Hash, K, 0)], FIRST));
        assert!(!results_in(&[hashes[0], (Rule::Hash, FIRST, 0)], FIRST));
        assert!(!results_in(&hashes, register));
    }
    let of_a_reduced_term = [(Rule::Fst, XK, 0), (Rule::Hash, 6, 0), (Rule::Hash, X, 0)];
    assert!(results_in(&of_a_reduced_term, 7));
}

#[test]
fn nothing_reduces_a_hash() {
    for rule in Rule::ALL {
        assert!(!results_in(&[(Rule::Hash, X, 0), (rule, FIRST, 0)], X), "{rule:?}");
        assert!(!results_in(&[(rule, X, 0), (Rule::Hash, FIRST, 0)], X), "{rule:?}");
    }
    let of_parts = [(Rule::Fst, GUESS, 0), (Rule::Snd, GUESS, 0), (Rule::Pair, 6, 7)];
    assert!(results_in(&of_parts, GUESS));
    let of_hashes = [(Rule::Hash, GUESS, 0), (Rule::Hash, GUESS, 0), (Rule::Pair, 6, 7)];
    assert!(!results_in(&of_hashes, GUESS));
}

#[test]
fn a_hash_is_a_key_as_any_term_is() {
    let hashes = [(Rule::Hash, K, 0), (Rule::Hash, K, 0), (Rule::Hash, X, 0)];
    let opened = |key| [&hashes[..], &[(Rule::Enc, X, 6), (Rule::Dec, 9, key)]].concat();
    assert!(results_in(&opened(7), X));
    assert!(!results_in(&opened(8), X));
    assert!(!results_in(&opened(K), X));
    let asymmetric = [&hashes[..], &[(Rule::Enca, X, 6), (Rule::Deca, 9, 7)]].concat();
    assert!(!results_in(&asymmetric, X));
    assert!(!signal(&hashes, Test::HasInverse, [6, 7]));
}

#[test]
fn has_inverse() {
    assert!(signal(&[], Test::HasInverse, [PUBLIC, PRIVATE]));
    assert!(signal(&[], Test::HasInverse, [PRIVATE, PUBLIC]));
    for tested in [[PUBLIC, PUBLIC], [K, K], [GUESS, GUESS], [XK, XK]] {
        assert!(!signal(&[], Test::HasInverse, tested));
    }
}

#[test]
fn terms_that_double_are_compared_at_once() {
    let doubled = |from: u8| {
        move |step: u8| {
            let last = if step == 0 { from } else { FIRST + step - 1 };
            (Rule::Pair, last, last)
        }
    };
    let (half, most) = (MOST_INSTRUCTIONS as u8 / 2, MOST_INSTRUCTIONS as u8);
    let mut program: Vec<_> = (0..half).map(doubled(X)).collect();
    program.push((Rule::Pair, X, X));
    program.extend((half + 1..most).map(doubled(X)));
    let (last_of_half, last) = (FIRST + half - 1, FIRST + most - 1);
    assert!(signal(&program, Test::Equal, [last_of_half, last]));
    assert!(!signal(&program, Test::Equal, [last_of_half, last - 1]));
}
