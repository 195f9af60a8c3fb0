//! The reference on shapes: they are what their comments say.

use checker_tests::bodies::Bodies;
use checker_tests::generate::shapes::{
    atoms, built, filled, hash_key_chain, inverse_key_chain, keys_beside, largest, largest_built,
    largest_deducible, listed_last, locked_by_hashes, nested, nested_hash_keys, nested_pairs,
    tower, tower_known, Naming, Nesting, Order, Secrets,
};
use checker_tests::generate::{astray, repeated};
use checker_tests::reference::{deducible, derivation_and_claim, verdict, Refusal};
use checker_tests::tables::{Body, Kind, Reason, Rule, Way, LONGEST_READ_BACK};

fn first_line(bodies: &Bodies) -> String {
    verdict(&bodies.submission()).lines().next().unwrap().to_string()
}

/// Whether each of these terms is deducible.
fn are_deducible(bodies: &Bodies, numbers: impl IntoIterator<Item = usize>) -> bool {
    let submission = bodies.submission();
    numbers.into_iter().all(|number| deducible(&submission, number as u8).unwrap())
}

fn is_hash(record: &[u8; 3]) -> bool {
    record[0] == Kind::Hash.number()
}

fn hashes(bodies: &Bodies) -> usize {
    bodies.terms.iter().filter(|record| is_hash(record)).count()
}

/// The messages under keys that are hashes.
fn under_hashes(bodies: &Bodies) -> Vec<usize> {
    let mut messages = Vec::new();
    for &[kind, message, key] in &bodies.terms {
        if kind == Kind::Enc.number() && is_hash(&bodies.terms[usize::from(key)]) {
            messages.push(message.into());
        }
    }
    messages
}

#[test]
fn hashes_up_to_the_limit() {
    let tower = tower(Nesting::Hashes, Body::Terms.most());
    assert_eq!((tower.terms.len(), hashes(&tower)), (250, 249));
    assert!(are_deducible(&tower, 0..250));
}

#[test]
fn an_atom_in_as_many_pairs_as_can_be() {
    for kind in Kind::atoms() {
        let tower = tower_known(kind, Body::Terms.most());
        assert_eq!((tower.terms.len(), &tower.knowledge[..]), (250, &[249][..]));
        assert!(are_deducible(&tower, 0..250));
    }
}

#[test]
fn hashes_of_the_guess() {
    for steps in [1, 2, 127, 128] {
        let bodies = built(Nesting::Hashes, Body::Terms.most(), steps);
        assert_eq!((bodies.terms.len(), hashes(&bodies)), (250, 249));
        assert_eq!(first_line(&bodies), format!("accepted {steps}"));
        assert!(are_deducible(&bodies, steps..250));
        assert!((0..steps).all(|number| !are_deducible(&bodies, [number])));
    }
}

#[test]
fn nested_terms_are_built_where_their_atom_is_known() {
    for (title, nesting) in Nesting::ALL {
        let [known, hidden] = [true, false].map(|known| nested(nesting, known));
        assert_eq!(known.terms.len(), 250, "{title}");
        assert_eq!(first_line(&known), "refused 8 1", "{title}");
        assert_eq!(first_line(&hidden), "accepted 2", "{title}");
        let top = usize::from(known.derivation[1][1]);
        assert!(are_deducible(&known, [top]) && !are_deducible(&hidden, [top]), "{title}");
    }
}

#[test]
fn the_most_steps_are_accepted() {
    let mut shapes = vec![largest()];
    shapes.extend([Nesting::Enca, Nesting::Hashes].map(largest_built));
    for way in [Way::DeducibleInverse, Way::DeducibleGuess] {
        shapes.extend([false, true].map(|is_entry| largest_deducible(way, is_entry)));
    }
    for bodies in shapes {
        assert_eq!([bodies.terms.len(), bodies.knowledge.len()], [250, 64]);
        assert_eq!(first_line(&bodies), "accepted 128");
    }
}

#[test]
fn what_is_deducible_comes_last() {
    for (way, term) in [(Way::DeducibleInverse, 1), (Way::DeducibleGuess, 0)] {
        let [by_step, by_entry] = [false, true].map(|is_entry| largest_deducible(way, is_entry));
        assert_eq!((by_step.claim[1], by_step.derivation[127][3]), (127, term));
        assert_eq!((by_entry.claim[1], by_entry.knowledge[63]), (255, term));
    }
}

#[test]
fn a_key_of_hashes_opens_where_its_atom_is_known() {
    for known in [true, false] {
        let bodies = locked_by_hashes(known);
        let [_, locked, _] = bodies.terms[249];
        assert_eq!((bodies.terms.len(), hashes(&bodies)), (250, 245));
        assert_eq!(are_deducible(&bodies, [locked.into()]), known);
        assert_eq!(first_line(&bodies), "accepted 1");
    }
}

/// The chains with as many links as fit, of which the first and the last message listed are asked
/// for, one of them the last link; and the same without the first secret, which comes first after
/// what verifies the guess.
#[test]
fn each_opened_message_gives_the_next_key() {
    let mut chains = vec![("nested".to_string(), nested_hash_keys(49, 2))];
    for (word, order) in Order::ALL {
        for (title, secrets) in Secrets::ALL {
            chains.push((format!("{title}, {word}"), hash_key_chain(secrets, 61, 2, order)));
            chains.push((format!("{title}, {word}"), hash_key_chain(secrets, 76, 1, order)));
        }
        chains.push((word.to_string(), hash_key_chain(Secrets::Hashes, 102, 0, order)));
    }
    for (title, mut bodies) in chains {
        assert!(bodies.terms.len() > 246 && bodies.terms.len() <= 250, "{title}");
        assert_eq!(first_line(&bodies), "accepted 1", "{title}");
        let locked = under_hashes(&bodies);
        let ends = [locked[0], locked[locked.len() - 1]];
        assert!(locked.len() >= 49 && are_deducible(&bodies, ends), "{title}");
        bodies.knowledge.remove(2);
        assert!(ends.into_iter().all(|number| !are_deducible(&bodies, [number])), "{title}");
    }
}

#[test]
fn atoms_up_to_the_limit() {
    for naming in [Naming::BothBytes, Naming::OneLowByte] {
        for kinds in [&[Kind::Plain][..], &[Kind::Public, Kind::Private]] {
            let bodies = atoms(kinds, naming);
            assert_eq!(bodies.terms.len(), 250);
            assert_eq!(first_line(&bodies), "refused 5 0");
        }
    }
}

#[test]
fn keys_beside_what_verifies_the_guess() {
    for naming in [Naming::BothBytes, Naming::OneLowByte] {
        let bodies = keys_beside(&[Kind::Public, Kind::Private], naming);
        assert_eq!(bodies.terms.len(), 250);
        assert_eq!(first_line(&bodies), "accepted 1");
        assert!((3..250).all(|key| !are_deducible(&bodies, [key])));
    }
}

/// The last term is an atom that nobody knows, and there are few of these.
#[test]
fn a_filled_shape_has_so_many_terms() {
    let shapes: [fn(usize) -> Bodies; 3] = [
        |links| inverse_key_chain(Kind::Private, links, Order::Rising),
        |levels| nested_pairs(levels, levels / 4, levels / 3),
        |links| hash_key_chain(Secrets::Hashes, links, 0, Order::Falling),
    ];
    for shape in shapes {
        for terms in [25, 50, 249, 250] {
            let bodies = filled(terms, shape);
            assert_eq!(bodies.terms.len(), terms);
            assert_eq!(first_line(&bodies), "accepted 1");
            assert!(!are_deducible(&bodies, [terms - 1]) && are_deducible(&bodies, [terms - 6]));
        }
    }
}

/// Each instruction of a longest program builds the next of the terms that are listed last. Changed, its
/// last one builds none.
#[test]
fn what_a_program_builds_is_listed_last() {
    for (rule, nesting) in [(Rule::Pair, Nesting::DoublingPairs), (Rule::Hash, Nesting::Hashes)] {
        let bodies = listed_last(nesting);
        assert_eq!((bodies.terms.len(), bodies.knowledge.len()), (250, 64));
        assert_eq!(first_line(&bodies), "refused 16 0");
        let program = repeated(rule, 64, |register| register);
        let read_back = derivation_and_claim(&bodies.submission(), &program).unwrap();
        assert_eq!(read_back.len(), LONGEST_READ_BACK);
        let steps = bodies.with(&read_back).derivation;
        let conclusions: Vec<u8> = steps.iter().map(|step| step[3]).collect();
        assert_eq!(conclusions, (122..250).map(|term| term as u8).collect::<Vec<u8>>());
        let off = Refusal { reason: Reason::OffTheTable, place: 64 + 128 };
        let found = derivation_and_claim(&bodies.submission(), &astray(&program, 64));
        assert_eq!(found, Err(off));
    }
}
