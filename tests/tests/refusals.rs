//! The reference on faults put into M1, one at a time: each has its number and place.

use checker_tests::bodies::{self, Bodies};
use checker_tests::examples::submission;
use checker_tests::reference::{code, deducible, run, verdict, REFUSAL};
use checker_tests::tables::{program_length, unclaimed, Body, MOST_INSTRUCTIONS};

/// The verdict on M1 with changed bytes.
fn verdict_on_bytes(change: impl Fn(&mut Vec<u8>)) -> String {
    let mut bytes = submission("M1");
    change(&mut bytes);
    verdict(&bytes)
}

/// The verdict on M1 with changed bodies. Its terms are n, g, enc(n, g); its knowledge 0 and 2; its
/// step dec 2 1 to 0; its claim guess 1, step 0, way b.
fn verdict_on_bodies(change: impl Fn(&mut Bodies)) -> String {
    let mut bodies = Bodies::read(&submission("M1")).unwrap();
    change(&mut bodies);
    verdict(&bodies.submission())
}

#[test]
fn contents() {
    let faults: [fn(&mut Vec<u8>); 6] = [
        |bytes| bytes.clear(),
        |bytes| bytes.truncate(15),
        |bytes| bytes[4] = b'k',
        |bytes| bytes[3] = 17,
        |bytes| bytes.push(0),
        |bytes| bytes.truncate(34),
    ];
    for fault in faults {
        assert_eq!(verdict_on_bytes(fault), "refused 1 0\n");
    }
}

#[test]
fn counts() {
    let counts = [
        ([0, 2, 1, 1], 0),
        ([251, 65, 1, 1], 0),
        ([255; 4], 0),
        ([3, 65, 129, 1], 1),
        ([3, 2, 129, 2], 2),
        ([3, 2, 1, 0], 3),
        ([3, 2, 1, 2], 3),
    ];
    for (counts, place) in counts {
        let bodies = Body::ALL.map(|body| vec![0; counts[body as usize] * body.record()]);
        let bytes = bodies::submission(bodies.each_ref().map(Vec::as_slice));
        assert_eq!(verdict(&bytes), format!("refused 2 {place}\n"));
    }
}

#[test]
fn terms() {
    let no_kinds = unclaimed::KINDS.map(|kind| [kind, 0, 1]);
    let records = [[1, 0, 2], [5, 0, 1], [4, 3, 0], [4, 0, 3], [5, 0, 2], [6, 0, 1]];
    for record in no_kinds.into_iter().chain(records) {
        let found = verdict_on_bodies(|bodies| bodies.terms.push(record));
        assert_eq!(found, "refused 3 3\n", "{record:?}");
    }
    assert_eq!(verdict_on_bodies(|bodies| bodies.terms[0] = [4, 0, 0]), "refused 3 0\n");
}

#[test]
fn knowledge() {
    assert_eq!(verdict_on_bodies(|bodies| bodies.knowledge[0] = 3), "refused 4 0\n");
    assert_eq!(verdict_on_bodies(|bodies| bodies.knowledge.push(0)), "refused 4 2\n");
}

#[test]
fn claims() {
    let no_ways = unclaimed::WAYS.map(|way| [1, 0, way, 0]);
    let claims = [
        [3, 0, b'b', 0],
        [2, 0, b'b', 0],
        [1, 1, b'b', 0],
        [1, 0, b'b', 1],
        [1, 0, b'a', 1],
        [1, 0, b'c', 3],
    ];
    for claim in no_ways.into_iter().chain(claims) {
        assert_eq!(verdict_on_bodies(|bodies| bodies.claim = claim), "refused 5 0\n", "{claim:?}");
    }
}

#[test]
fn steps() {
    let no_rules = unclaimed::RULES.map(|rule| [rule, 2, 1, 0]);
    let steps = [
        [4, 3, 1, 0],
        [4, 2, 3, 0],
        [4, 2, 1, 3],
        [4, 2, 0, 0],
        [4, 2, 1, 1],
        [3, 1, 0, 2],
        [6, 2, 1, 0],
        [1, 2, 0, 0],
    ];
    for step in no_rules.into_iter().chain(steps) {
        let found = verdict_on_bodies(|bodies| bodies.derivation[0] = step);
        assert_eq!(found, "refused 6 0\n", "{step:?}");
    }
}

#[test]
fn a_part_has_no_second_premise() {
    let with_second = |q| {
        verdict_on_bodies(|bodies| {
            bodies.terms.push([4, 0, 1]);
            bodies.derivation = vec![[0, 0, 1, 3], [1, 3, q, 0]];
            bodies.claim[1] = 1;
        })
    };
    assert_eq!(with_second(1), "refused 6 1\n");
    assert_eq!(with_second(0), "refused 10 0\n");
}

#[test]
fn shape_and_foundation_are_tried_step_by_step() {
    let (unfounded, bad) = ([3, 0, 1, 2], [unclaimed::RULES[0], 0, 0, 0]);
    let unfounded_first = verdict_on_bodies(|bodies| {
        bodies.knowledge = vec![2];
        bodies.derivation = vec![unfounded, bad];
    });
    assert_eq!(unfounded_first, "refused 7 0\n");
    let shape_first = verdict_on_bodies(|bodies| {
        bodies.knowledge = vec![2];
        bodies.derivation = vec![bad, unfounded];
    });
    assert_eq!(shape_first, "refused 6 0\n");
}

#[test]
fn no_such_term() {
    assert_eq!(code(deducible(&submission("M1"), 3)), 12 * REFUSAL);
    assert_eq!(code(deducible(&submission("M1"), 2)), 1);
    assert_eq!(code(deducible(&submission("M1"), 1)), 0);
}

/// What M1 answers to a program, with the right guess.
fn answer_to(program: &[u8]) -> u32 {
    code(run(&submission("M1"), 2, program))
}

#[test]
fn programs() {
    let programs: [&[u8]; 10] = [
        &[],
        &[0],
        &[1, 4, 1, 2, b'=', 3],
        &[1, 4, 1, 2, b'=', 3, 0, 0],
        &[0, 4, 1, 2, b'=', 3, 0],
        &[1, 4, 3, 2, b'=', 3, 0],
        &[1, 4, 1, 3, b'=', 3, 0],
        &[1, 1, 1, 2, b'=', 3, 0],
        &[1, 4, 1, 2, b'=', 4, 0],
        &[1, 4, 1, 2, b'=', 3, 4],
    ];
    for program in programs {
        assert_eq!(answer_to(program), 13 * REFUSAL, "{program:?}");
    }
    for rule in unclaimed::RULES {
        assert_eq!(answer_to(&[1, rule, 1, 2, b'=', 3, 0]), 13 * REFUSAL, "rule {rule}");
    }
    for test in unclaimed::TESTS {
        assert_eq!(answer_to(&[1, 4, 1, 2, test, 3, 0]), 13 * REFUSAL, "test {test}");
    }
}

#[test]
fn programs_of_the_greatest_length() {
    let pairs_of_register_0 = |count: usize| {
        let mut program = vec![0; program_length(count)];
        program[0] = count as u8;
        program[program_length(count) - 3] = b'=';
        program
    };
    assert_eq!(answer_to(&pairs_of_register_0(MOST_INSTRUCTIONS)), 1);
    assert_eq!(answer_to(&pairs_of_register_0(MOST_INSTRUCTIONS + 1)), 13 * REFUSAL);
}
