//! The reference on stale names: what makes a name stale, which ones run refuses, and that it refuses
//! them last.

use std::collections::HashSet;

use checker_tests::bodies::{self, Bodies};
use checker_tests::examples::submission;
use checker_tests::generate::{shapes, shortest, Source};
use checker_tests::notation::assemble;
use checker_tests::reference::{code, is_wrong_guess, program, run, Guesses, Met, REFUSAL};
use checker_tests::tables::{Body, Kind, Rule, Test};

const STALE: u32 = 15 * REFUSAL;

/// The name of the guess in the submissions here.
const OWN: u16 = 5;

/// All names below this one are tried on them.
const TRIED: u16 = 20;

/// A submission with a guess of this kind, these messages known, and terms for them. Term 0, which the
/// unused byte of a hash would number, is known to nobody. Run doesn't look at the step.
fn knowing(guess: Kind, terms: &[&str], messages: &[&str]) -> Vec<u8> {
    let guess = format!("{} {OWN}", guess.word());
    let mut lines = vec!["terms", "plain 19", &guess];
    lines.extend(terms);
    lines.push("knowledge");
    lines.extend(messages);
    lines.extend(["derivation", "0: plain 19 = hash(plain 19)"]);
    let claim = format!("guess {guess}");
    lines.extend(["claim", &claim, "step 0", "way b"]);
    assemble(&lines.join("\n")).unwrap()
}

/// A program that signals 1 with every name that is taken.
fn taking(submission: &[u8]) -> Vec<u8> {
    let guess = Bodies::read(submission).unwrap().knowledge.len() as u8;
    shortest(Test::Equal, [guess, guess])
}

/// The names that run refuses. The others are taken, and are those of wrong guesses but for the
/// guess's own.
fn refused(submission: &[u8]) -> Vec<u16> {
    let program = taking(submission);
    let (refused, taken): (Vec<u16>, Vec<u16>) =
        (0..TRIED).partition(|&name| code(run(submission, name, &program)) == STALE);
    for name in taken {
        assert_eq!(run(submission, name, &program), Ok(true), "{name}");
        assert_eq!(is_wrong_guess(submission, name), Ok(name != OWN), "{name}");
    }
    for &name in &refused {
        assert_eq!(is_wrong_guess(submission, name), Ok(false), "{name}");
    }
    refused
}

#[test]
fn m1_refuses_the_name_that_it_knows() {
    let (m1, page) = (submission("M1"), [1, 4, 1, 2, b'=', 3, 0]);
    for (name, expected) in [(1, STALE), (2, 1), (3, 0), (0, 0), (256, 0), (u16::MAX, 0)] {
        assert_eq!(code(run(&m1, name, &page)), expected, "{name}");
    }
}

/// Its guess is plain: the keys of the name k are not in its way.
#[test]
fn m8_takes_the_name_of_its_keys() {
    let m8 = submission("M8");
    let page = program(&m8).unwrap();
    let terms = Bodies::read(&m8).unwrap().terms;
    let [own, public, private] = [0, 1, 2].map(|number| bodies::name(terms[number]));
    assert_eq!(public, private);
    assert_eq!(
        [own, public, 1].map(|name| run(&m8, name, &page)),
        [Ok(true), Ok(false), Ok(false)]
    );
}

#[test]
fn an_atom_may_be_met_anywhere() {
    let terms = ["plain 1", "plain 2", "plain 3", "public 4", "a = pair(plain 1, plain 2)"];
    let met = [
        ("plain 3", "plain 3", vec![3]),
        ("b = pair(plain 2, plain 1)", "b", vec![1, 2]),
        ("b = enc(plain 1, plain 2)", "b", vec![1, 2]),
        ("b = enca(plain 3, public 4)", "b", vec![3]),
        ("b = hash(plain 3)", "b", vec![3]),
        ("b = enc(plain 3, plain 3)", "b", vec![3]),
        ("b = hash(a)", "b", vec![1, 2]),
        ("b = enc(plain 3, plain 1)", "a", vec![1, 2]),
    ];
    for (last, message, expected) in met {
        let terms: Vec<&str> = terms.into_iter().filter(|term| *term != last).collect();
        let found = refused(&knowing(Kind::Plain, &[&terms[..], &[last]].concat(), &[message]));
        assert_eq!(found, expected, "{last}");
    }
}

/// Through a key that is a hash, out of pairs, encryptions and hashes of each other.
#[test]
fn an_atom_may_be_met_deep_inside() {
    let terms = [
        "plain 1",
        "plain 2",
        "plain 3",
        "public 4",
        "a = pair(plain 1, public 4)",
        "b = hash(a)",
        "c = enc(plain 2, b)",
        "d = enca(c, public 4)",
        "e = pair(plain 3, d)",
        "f = hash(e)",
        "h = enc(public 4, f)",
    ];
    for (message, expected) in
        [("h", vec![1, 2, 3]), ("e", vec![1, 2, 3]), ("d", vec![1, 2]), ("b", vec![1])]
    {
        assert_eq!(refused(&knowing(Kind::Plain, &terms, &[message])), expected, "{message}");
        assert_eq!(refused(&knowing(Kind::Public, &terms, &[message])), [4], "{message}");
    }
    let two_messages = knowing(Kind::Plain, &terms, &["plain 3", "b"]);
    assert_eq!(refused(&two_messages), [1, 3]);
}

#[test]
fn every_message_is_searched() {
    let atoms: Vec<String> = (6..16).map(|name| format!("plain {name}")).collect();
    let atoms: Vec<&str> = atoms.iter().map(String::as_str).collect();
    assert_eq!(refused(&knowing(Kind::Plain, &atoms, &atoms)), (6..16).collect::<Vec<_>>());
    assert_eq!(refused(&knowing(Kind::Plain, &atoms, &atoms[1..9])), (7..15).collect::<Vec<_>>());
    assert_eq!(refused(&knowing(Kind::Plain, &atoms, &[])), []);
}

/// Both keys of a name count, and nothing else of that name does.
#[test]
fn a_key_is_stale_by_its_inverse_too() {
    let terms = ["plain 1", "public 2", "private 3", "a = enca(plain 1, private 3)"];
    let hashes = [&terms[..], &["b = hash(public 2)", "c = enc(plain 1, b)"]].concat();
    for guess in [Kind::Public, Kind::Private] {
        let refused = |message| refused(&knowing(guess, &hashes, &[message]));
        assert_eq!(refused("plain 1"), []);
        assert_eq!(refused("public 2"), [2]);
        assert_eq!(refused("private 3"), [3]);
        assert_eq!(refused("a"), [3]);
        assert_eq!(refused("b"), [2]);
        assert_eq!(refused("c"), [2]);
    }
    for message in ["public 2", "private 3", "b"] {
        assert_eq!(refused(&knowing(Kind::Plain, &hashes, &[message])), [], "{message}");
    }
}

#[test]
fn the_own_name_is_taken_even_where_it_is_stale() {
    for guess in [Kind::Plain, Kind::Public, Kind::Private] {
        let own = format!("{} {OWN}", guess.word());
        let hashed = format!("a = hash({own})");
        for message in [&own, "a"] {
            let submission = knowing(guess, &[&hashed], &[message]);
            assert_eq!(refused(&submission), [], "{message}");
            assert!(Guesses::of(&submission).unwrap().is_stale(OWN));
        }
    }
    for (guess, inverse) in Kind::inverses() {
        let inverse = format!("{} {OWN}", inverse.word());
        let submission = knowing(guess, &[&inverse, "plain 1"], &[&inverse, "plain 1"]);
        assert_eq!(refused(&submission), []);
        assert!(Guesses::of(&submission).unwrap().is_stale(OWN));
    }
}

#[test]
fn what_is_only_listed_is_fresh() {
    let terms = ["plain 1", "plain 2", "a = enc(plain 1, plain 2)", "b = pair(a, plain 1)"];
    assert_eq!(refused(&knowing(Kind::Plain, &terms, &["plain 1"])), [1]);
    assert_eq!(refused(&knowing(Kind::Plain, &terms, &[])), []);
}

/// The two bytes of a compound's record, here 2 and 3, are no name; those of a name count both.
#[test]
fn names_are_whole_and_of_atoms() {
    let terms = ["plain 7", "plain 258", "a = pair(plain 7, plain 258)"];
    let submission = knowing(Kind::Plain, &terms, &["a"]);
    let answer = |name: u16| code(run(&submission, name, &taking(&submission)));
    assert_eq!(Bodies::read(&submission).unwrap().terms[4], [4, 2, 3]);
    assert_eq!([7, 258].map(answer), [STALE; 2]);
    assert_eq!([1, 2, 256, 257, 513, 514, 515, 1792].map(answer), [1; 8]);
}

#[test]
fn every_other_refusal_comes_first() {
    let m1 = Bodies::read(&submission("M1")).unwrap();
    let page = [1, 4, 1, 2, b'=', 3, 0];
    let answer = |change: fn(&mut Bodies), program: &[u8]| {
        let mut bodies = m1.clone();
        change(&mut bodies);
        code(run(&bodies.submission(), 1, program))
    };
    assert_eq!(answer(|_| (), &page), STALE);
    assert_eq!(answer(|_| (), &page[..6]), 13 * REFUSAL);
    assert_eq!(answer(|_| (), &[1, 4, 1, 3, b'=', 3, 0]), 13 * REFUSAL);
    assert_eq!(answer(|bodies| bodies.claim[1] = 1, &page), 5 * REFUSAL);
    assert_eq!(answer(|bodies| bodies.claim[1] = 1, &[]), 5 * REFUSAL);
    assert_eq!(answer(|bodies| bodies.knowledge.push(0), &page), 4 * REFUSAL + 2);
    assert_eq!(answer(|bodies| bodies.terms.push([1, 0, 1]), &page), 3 * REFUSAL + 3);
    assert_eq!(answer(|bodies| bodies.terms.clear(), &page), 2 * REFUSAL);
    assert_eq!(code(run(&[], 1, &page)), REFUSAL);
}

/// A submission that is refused for its steps or conditions can be run, and has stale names.
#[test]
fn steps_and_conditions_do_not_matter() {
    for (name, stale) in [("M5", 4), ("M7", 1), ("M9", 1)] {
        let submission = submission(name);
        let program = taking(&submission);
        let records = Bodies::read(&submission).unwrap().terms.into_iter();
        let atoms = records.filter(|[kind, ..]| *kind == Kind::Plain.number());
        let refused =
            atoms.map(bodies::name).filter(|&name| code(run(&submission, name, &program)) == STALE);
        assert_eq!(refused.count(), stale, "{name}");
    }
}

/// As a tree, the known pair has 2 to the power of 246 leaves.
#[test]
fn shared_parts_are_looked_at_once() {
    let submission = shapes::doubling_known(Body::Terms.most()).submission();
    let program = taking(&submission);
    for (name, expected) in [(shapes::FRESH, STALE), (shapes::FRESH + 1, 1), (2, 1), (1, STALE)] {
        assert_eq!(code(run(&submission, name, &program)), expected, "{name}");
    }
}

/// How the comparison counts the ways in which stale atoms are met.
#[test]
fn what_a_search_would_miss() {
    let terms = [
        "plain 1",
        "plain 2",
        "plain 3",
        "plain 4",
        "a = hash(plain 2)",
        "b = enc(plain 1, a)",
        "c = pair(plain 3, b)",
        "d = pair(plain 4, c)",
    ];
    let submission = knowing(Kind::Plain, &terms, &["d", "plain 4", "plain 1"]);
    let guesses = Guesses::of(&submission).unwrap();
    let missed = |way| -> Vec<u16> {
        let atoms = guesses.atoms_without(way);
        (0..TRIED)
            .filter(|&name| guesses.is_stale(name) && !atoms.make_stale(Kind::Plain, name))
            .collect()
    };
    assert_eq!(missed(Met::Whole), []);
    assert_eq!(missed(Met::Operand(Rule::Pair, 0)), [3]);
    assert_eq!(missed(Met::Operand(Rule::Pair, 1)), [2, 3]);
    assert_eq!(missed(Met::Operand(Rule::Enc, 0)), []);
    assert_eq!(missed(Met::Operand(Rule::Enc, 1)), [2]);
    assert_eq!(missed(Met::Operand(Rule::Hash, 0)), [2]);
    assert_eq!(missed(Met::Deep), [2]);
    let whole = knowing(Kind::Plain, &["plain 1"], &["plain 1"]);
    assert!(!Guesses::of(&whole).unwrap().atoms_without(Met::Whole).make_stale(Kind::Plain, 1));
}

/// The guess's own name first, and every stale one after it, on the page as with a short program.
#[test]
fn the_generator_tries_every_stale_name() {
    let mut source = Source::new(15);
    let mut found = [0; Kind::ALL.len()];
    for _ in 0..1000 {
        let input = source.next_input();
        let Ok(guesses) = Guesses::of(&input.submission) else {
            continue;
        };
        let short = input.runs.iter().filter(|(_, program)| program.len() == 4);
        let run: HashSet<u16> = short.map(|(name, _)| *name).collect();
        let on_page: HashSet<u16> = input.names.iter().copied().collect();
        assert_eq!(input.names[0], guesses.own());
        for name in (0..=u16::MAX).filter(|&name| guesses.is_stale(name)) {
            assert!(run.contains(&name) && on_page.contains(&name), "{name}");
            found[guesses.kind() as usize] += 1;
        }
    }
    assert!(Kind::atoms().into_iter().all(|kind| found[kind as usize] > 100), "{found:?}");
}
