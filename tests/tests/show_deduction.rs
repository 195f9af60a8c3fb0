//! The steps that show that a term is deducible: the reference's own, and what it finds wrong with
//! others.

use checker_tests::bodies::Bodies;
use checker_tests::examples::{self, submission};
use checker_tests::generate::shapes::{self, Nesting, Order, Secrets};
use checker_tests::generate::{deepest, Source};
use checker_tests::notation::assemble;
use checker_tests::page::{called, PAINT};
use checker_tests::reference::{check, deducible, deduction, records, Deductions, Fault, REFUSAL};
use checker_tests::tables::{Body, Kind, Rule, Way, LONGEST_PROGRAM, SHORTEST_SHEET};

/// What deduction answers on a page of this length, and the bytes that it has to write: none where it
/// says no or refuses. All the others are as before.
fn found(submission: &[u8], term: u8, page: usize) -> (u32, Vec<u8>) {
    let count = |answer| Body::Derivation.record() * usize::from(answer).saturating_sub(1);
    called(page, count, |page| deduction(submission, term, page))
}

/// The steps to the term; none where it isn't deducible.
fn steps(submission: &[u8], term: u8) -> Option<Vec<[u8; 4]>> {
    let (answer, bytes) = found(submission, term, SHORTEST_SHEET);
    (answer > 0).then(|| records(&bytes).collect())
}

/// A submission with these lines of terms and of the knowledge. Its guess is the first term.
fn text(terms: &[&str], knowledge: &[&str]) -> Vec<u8> {
    let [terms, knowledge] = [terms, knowledge].map(|lines| lines.join("\n"));
    let text = format!(
        "terms\n{terms}\nknowledge\n{knowledge}\nderivation\nclaim\nguess @0\nstep 0\nway b\n"
    );
    assemble(&text).unwrap_or_else(|fault| panic!("{fault}\n{text}"))
}

fn fault(submission: &[u8], term: u8, steps: &[[u8; 4]]) -> Result<(), Fault> {
    Deductions::of(submission).unwrap().verify(term, steps)
}

/// g, a, b, (a, b), enc(b, g), enc((a, b), b), hash(a); b and enc((a, b), b) are known.
fn locked_pair() -> Vec<u8> {
    text(
        &[
            "g",
            "a",
            "b",
            "ab = pair(a, b)",
            "eg = enc(b, g)",
            "eb = enc(ab, b)",
            "h = hash(a)",
            "c",
            "hh = hash(h)",
        ],
        &["b", "eb"],
    )
}

const OPEN: [u8; 4] = [4, 5, 2, 3];
const FIRST: [u8; 4] = [1, 3, 0, 1];
const HASH: [u8; 4] = [7, 1, 0, 6];

#[test]
fn a_term_in_the_knowledge_gets_no_steps() {
    for (name, terms) in [("M1", [0, 2]), ("M8", [2, 3])] {
        for term in terms {
            assert_eq!(found(&submission(name), term, 1_000), (1, vec![]), "{name} {term}");
        }
    }
}

#[test]
fn a_no_writes_nothing() {
    for (name, term) in [("M1", 1), ("M2", 0), ("M8", 0), ("M8", 1)] {
        assert_eq!(found(&submission(name), term, 1_000), (0, vec![]), "{name} {term}");
    }
}

/// The only steps to each term of M6, from (((v, x), y), z).
#[test]
fn the_steps_of_m6() {
    let submission = submission("M6");
    let bodies = Bodies::read(&submission).unwrap();
    let [v, whole] = [0, 2].map(|entry| bodies.knowledge[entry]);
    let parts = |pair: u8| {
        let [_, x, y] = bodies.terms[usize::from(pair)];
        [x, y]
    };
    let [vxy, z] = parts(whole);
    let [vx, y] = parts(vxy);
    let [_, x] = parts(vx);
    let [first, second, third] = [[1, whole, 0, vxy], [1, vxy, 0, vx], [2, vx, 0, x]];
    for (term, expected) in [
        (v, vec![]),
        (whole, vec![]),
        (z, vec![[2, whole, 0, z]]),
        (vxy, vec![first]),
        (y, vec![first, [2, vxy, 0, y]]),
        (vx, vec![first, second]),
        (x, vec![first, second, third]),
    ] {
        assert_eq!(steps(&submission, term), Some(expected), "{term}");
    }
}

/// In the marked examples, and with a yes exactly where deducible has one.
#[test]
fn every_example_has_good_steps() {
    for name in examples::names() {
        let submission = submission(&name);
        let Ok(mut deductions) = Deductions::of(&submission) else { continue };
        for term in 0..Bodies::read(&submission).unwrap().terms.len() as u8 {
            let steps = steps(&submission, term);
            assert_eq!(deducible(&submission, term), Ok(steps.is_some()), "{name} {term}");
            if let Some(steps) = steps {
                assert_eq!(deductions.verify(term, &steps), Ok(()), "{name} {term}");
            }
        }
    }
}

#[test]
fn refusals_come_in_their_order() {
    let m1 = submission("M1");
    for page in [0, 1, 999] {
        assert_eq!(found(&m1, 0, page).0, 19 * REFUSAL + 1_000, "{page}");
        assert_eq!(found(&m1, 1, page).0, 19 * REFUSAL + 1_000, "{page}");
        assert_eq!(found(&m1, 3, page).0, 12 * REFUSAL, "{page}");
        assert_eq!(found(&m1[1..], 3, page).0, REFUSAL, "{page}");
    }
    for page in [1_000, 1_001, 65_536, 65_537] {
        assert_eq!(found(&m1, 0, page).0, 1, "{page}");
        assert_eq!(found(&m1, 255, page).0, 12 * REFUSAL, "{page}");
    }
    let changed = |change: fn(&mut Bodies)| {
        let mut bodies = Bodies::read(&m1).unwrap();
        change(&mut bodies);
        found(&bodies.submission(), 9, 999).0
    };
    assert_eq!(changed(|bodies| bodies.terms.clear()), 2 * REFUSAL);
    assert_eq!(changed(|bodies| bodies.terms[1] = bodies.terms[0]), 3 * REFUSAL + 1);
    assert_eq!(changed(|bodies| bodies.knowledge[1] = 3), 4 * REFUSAL + 1);
    assert_eq!(changed(|bodies| bodies.claim = [255; 4]), 12 * REFUSAL);
    assert_eq!(changed(|bodies| bodies.derivation = vec![[255; 4]; 2]), 12 * REFUSAL);
}

#[test]
fn each_rule_is_used() {
    let submission = text(
        &[
            "g",
            "plain 1",
            "plain 2",
            "plain 3",
            "public 1",
            "private 1",
            "h = hash(plain 1)",
            "p = pair(plain 2, plain 3)",
            "e = enc(p, h)",
            "ea = enca(e, private 1)",
            "back = pair(plain 3, plain 2)",
            "locked = enc(back, plain 2)",
            "sent = enca(locked, public 1)",
        ],
        &["plain 1", "public 1", "ea"],
    );
    let steps = steps(&submission, 12).unwrap();
    let mut rules: Vec<u8> = steps.iter().map(|step| step[0]).collect();
    rules.sort_unstable();
    assert_eq!(rules, Rule::ALL.map(Rule::number));
    assert_eq!(fault(&submission, 12, &steps), Ok(()));
}

/// A key that is built first, and only later comes out of what it opens.
#[test]
fn a_key_is_built_before_it_is_known_otherwise() {
    let submission = text(
        &["g", "a", "b", "h = hash(a)", "hb = pair(h, b)", "e = enc(hb, h)", "hh = pair(h, h)"],
        &["a", "e"],
    );
    let build = [7, 1, 0, 3];
    let open = [4, 5, 3, 4];
    assert_eq!(steps(&submission, 2), Some(vec![build, open, [2, 4, 0, 2]]));
    assert_eq!(steps(&submission, 3), Some(vec![build]));
    assert_eq!(steps(&submission, 6), Some(vec![build, [0, 3, 3, 6]]));
}

/// Each counts its steps, the last being the term asked for.
#[test]
fn the_longest_deductions() {
    let most = Body::Terms.most();
    for (_, nesting) in Nesting::ALL {
        let tower = shapes::tower(nesting, most).submission();
        let steps = steps(&tower, 249).unwrap();
        assert_eq!(fault(&tower, 249, &steps), Ok(()));
        assert_eq!(steps.len(), most - 1);
    }
    for kind in Kind::atoms() {
        let tower = shapes::tower_known(kind, most).submission();
        let steps = steps(&tower, 0).unwrap();
        assert_eq!(fault(&tower, 0, &steps), Ok(()));
        assert_eq!(steps.len(), most - 1);
    }
}

#[test]
fn the_guess_counts_for_nothing() {
    let submission = locked_pair();
    assert_eq!(steps(&submission, 0), None);
    assert_eq!(steps(&submission, 4), None);
    assert_eq!(fault(&submission, 4, &[[3, 2, 0, 4]]), Err(Fault::Unfounded(0)));
    let m1 = self::submission("M1");
    assert_eq!(fault(&m1, 0, &[[4, 2, 1, 0]]), Err(Fault::Unfounded(0)));
    assert_eq!(fault(&m1, 1, &[]), Err(Fault::OtherEnd));
}

#[test]
fn good_steps_have_no_fault() {
    let submission = locked_pair();
    for (term, steps) in [
        (2, &[][..]),
        (5, &[]),
        (3, &[OPEN]),
        (1, &[OPEN, FIRST]),
        (6, &[OPEN, FIRST, HASH]),
        (8, &[OPEN, FIRST, HASH, [7, 6, 0, 8]]),
    ] {
        assert_eq!(fault(&submission, term, steps), Ok(()), "{term}");
        assert_eq!(self::steps(&submission, term).as_deref(), Some(steps), "{term}");
    }
}

#[test]
fn each_fault_is_found() {
    let submission = locked_pair();
    let second = [2, 3, 0, 2];
    for (term, steps, expected) in [
        (6, vec![OPEN, FIRST, FIRST, HASH], Fault::KnownBefore(2)),
        (6, vec![OPEN, OPEN, FIRST, HASH], Fault::KnownBefore(1)),
        (3, vec![OPEN, FIRST, HASH, [0, 1, 2, 3]], Fault::KnownBefore(3)),
        (2, vec![OPEN, second], Fault::KnownBefore(1)),
        (5, vec![OPEN, [3, 3, 2, 5]], Fault::KnownBefore(1)),
        (6, vec![FIRST, OPEN, HASH], Fault::Unfounded(0)),
        (6, vec![OPEN, HASH, FIRST], Fault::Unfounded(1)),
        (6, vec![HASH], Fault::Unfounded(0)),
        (6, vec![HASH, OPEN, FIRST], Fault::Unfounded(0)),
        (1, vec![OPEN, FIRST, HASH], Fault::OtherEnd),
        (6, vec![OPEN, FIRST], Fault::OtherEnd),
        (2, vec![OPEN, FIRST], Fault::OtherEnd),
        (6, vec![], Fault::OtherEnd),
        (0, vec![], Fault::OtherEnd),
        (8, vec![OPEN, FIRST, HASH, [7, 3, 0, 8]], Fault::NoStep(3)),
        (1, vec![OPEN, [1, 3, 2, 1]], Fault::NoStep(1)),
        (1, vec![OPEN, [1, 3, 3, 1]], Fault::NoStep(1)),
        (6, vec![OPEN, FIRST, [7, 1, 1, 6]], Fault::NoStep(2)),
        (1, vec![OPEN, [2, 3, 0, 1]], Fault::NoStep(1)),
        (3, vec![[4, 5, 1, 3]], Fault::NoStep(0)),
        (3, vec![[4, 5, 2, 1]], Fault::NoStep(0)),
        (3, vec![[8, 5, 2, 3]], Fault::NoStep(0)),
        (3, vec![[4, 9, 2, 3]], Fault::NoStep(0)),
        (3, vec![[4, 5, 9, 3]], Fault::NoStep(0)),
        (3, vec![[4, 5, 2, 9]], Fault::NoStep(0)),
        (3, vec![OPEN, [PAINT; 4]], Fault::NoStep(1)),
        (3, vec![OPEN; 10], Fault::TooMany),
    ] {
        assert_eq!(fault(&submission, term, &steps), Err(expected), "{steps:?}");
    }
}

/// What is reached without being needed: from (a, b) in a known message comes b as well as a.
#[test]
fn a_superfluous_step_is_found() {
    let terms = ["g", "a", "b", "c", "ab = pair(a, b)", "h = hash(a)", "hc = hash(c)"];
    let submission = text(&terms, &["ab", "c"]);
    let [first, second] = [[1, 4, 0, 1], [2, 4, 0, 2]];
    let [hash, other_hash] = [[7, 1, 0, 5], [7, 3, 0, 6]];
    for (steps, expected) in [
        (vec![first, hash], Ok(())),
        (vec![second, first, hash], Err(Fault::NotNeeded(0))),
        (vec![first, second, hash], Err(Fault::NotNeeded(1))),
        (vec![first, other_hash, hash], Err(Fault::NotNeeded(1))),
        (vec![second, other_hash, first, hash], Err(Fault::NotNeeded(0))),
    ] {
        assert_eq!(fault(&submission, 5, &steps), expected, "{steps:?}");
    }
    assert_eq!(steps(&submission, 5), Some(vec![first, hash]));
    assert_eq!(steps(&submission, 2), Some(vec![second]));
}

/// The submission with these steps as its derivation, and a claim of way k: that the last of them, or
/// the knowledge, gives the term.
fn claimed(submission: &[u8], term: u8, steps: &[[u8; 4]]) -> Vec<u8> {
    let bodies = Bodies::read(submission).unwrap();
    let last = (steps.len() as u8).wrapping_sub(1);
    let claim = [term, last, Way::DeducibleGuess.letter(), 0];
    Bodies { derivation: steps.to_vec(), claim, ..bodies }.submission()
}

/// On inputs of all kinds: a yes exactly where deducible has one, with good steps; and the steps to an
/// atom are accepted as those of a claim that it is deducible.
#[test]
fn the_own_steps_are_good_and_accepted() {
    let mut source = Source::new(17);
    let random = (0..4_000).map(|_| source.next_input());
    let [mut yes, mut accepted, mut long] = [0; 3];
    for input in deepest().into_iter().map(|(_, input)| input).chain(random) {
        let submission = &input.submission;
        let Ok(mut deductions) = Deductions::of(submission) else { continue };
        let terms = Bodies::read(submission).unwrap().terms;
        for term in input.asked.iter().copied().filter(|&term| usize::from(term) < terms.len()) {
            let steps = deductions.steps(term, SHORTEST_SHEET).unwrap();
            assert_eq!(deducible(submission, term), Ok(steps.is_some()));
            let Some(steps) = steps else { continue };
            assert_eq!(deductions.verify(term, &steps), Ok(()));
            yes += 1;
            long += usize::from(steps.len() > Body::Derivation.most());
            let kind = Kind::from_number(terms[usize::from(term)][0]);
            if kind.is_some_and(Kind::is_atom) && steps.len() <= Body::Derivation.most() {
                let claimed = claimed(submission, term, &steps);
                let answer = check(&claimed, &mut [0; LONGEST_PROGRAM]);
                assert_eq!(answer, Ok(steps.len() as u8));
                accepted += 1;
            }
        }
    }
    assert!(yes > 2_000 && accepted > 1_000 && long > 5, "{yes} {accepted} {long}");
}

/// Chains of keys, in both orders, and of hashes as keys.
#[test]
fn chains_are_followed_to_their_end() {
    let mut chains = Vec::new();
    for (_, order) in Order::ALL {
        for (opener, _) in Kind::inverses() {
            chains.push(shapes::inverse_key_chain(opener, 50, order));
        }
        chains.push(shapes::plain_key_chain(40, 20, order));
        for (_, secrets) in Secrets::ALL {
            chains.extend((1..3).map(|depth| shapes::hash_key_chain(secrets, 20, depth, order)));
        }
    }
    chains.push(shapes::nested_hash_keys(30, 2));
    chains.push(shapes::nested_pairs(60, 20, 30));
    for bodies in chains {
        let submission = bodies.submission();
        let mut deductions = Deductions::of(&submission).unwrap();
        let mut longest = 0;
        for term in 0..bodies.terms.len() as u8 {
            let steps = deductions.steps(term, SHORTEST_SHEET).unwrap();
            assert_eq!(deducible(&submission, term), Ok(steps.is_some()));
            if let Some(steps) = steps {
                assert_eq!(deductions.verify(term, &steps), Ok(()));
                longest = longest.max(steps.len());
            }
        }
        assert!(longest >= 20, "{longest}");
    }
}
