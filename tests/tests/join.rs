//! The reference's pools of two submissions.

use checker_tests::bodies::Bodies;
use checker_tests::examples::submission;
use checker_tests::generate::Source;
use checker_tests::page::called;
use checker_tests::reference::{
    join, numbers_in_pool, verdict, Deductions, Joint, PoolFault, Refusal, REFUSAL,
};
use checker_tests::tables::{Body, Kind, Reason, LONGEST_SUBMISSION};

/// What join answers on a page of this length, and the page's first bytes: those that it has to write, or
/// none where it refuses. All the others are as before.
fn found(first: &[u8], second: &[u8], page: usize) -> (u32, Vec<u8>) {
    called(page, usize::from, |page| join(first, second, page))
}

/// The pool on a page that is long enough.
fn pool(first: &[u8], second: &[u8]) -> Vec<u8> {
    let (answer, pool) = found(first, second, LONGEST_SUBMISSION);
    assert_eq!(answer as usize, pool.len());
    pool
}

/// A submission over these terms, of which the first is an atom, with a claim that passes check 5.
fn listed(terms: &[[u8; 3]], knowledge: &[u8]) -> Bodies {
    Bodies {
        terms: terms.to_vec(),
        knowledge: knowledge.to_vec(),
        derivation: vec![],
        claim: [0, 255, b'k', 0],
    }
}

/// The terms and the knowledge of the pool of two such submissions.
fn pooled(first: (&[[u8; 3]], &[u8]), second: (&[[u8; 3]], &[u8])) -> (Vec<[u8; 3]>, Vec<u8>) {
    let [first, second] =
        [first, second].map(|(terms, knowledge)| listed(terms, knowledge).submission());
    let pool = Bodies::read(&pool(&first, &second)).unwrap();
    (pool.terms, pool.knowledge)
}

/// Different plain atoms, by a number.
fn atoms(numbers: std::ops::Range<usize>) -> Vec<[u8; 3]> {
    numbers.map(|number| [1, (number / 256) as u8, (number % 256) as u8]).collect()
}

#[test]
fn an_example_joined_with_itself_is_itself() {
    for name in ["M1", "M3", "M8", "M9", "003-needham-schroeder-kas", "own-hash-key"] {
        let own = submission(name);
        for page in [own.len(), own.len() + 1, 65_536] {
            assert_eq!(found(&own, &own, page), (own.len() as u32, own.clone()), "{name}");
        }
        let short = 11 * REFUSAL + own.len() as u32;
        for page in [0, 1, own.len() - 1] {
            assert_eq!(found(&own, &own, page), (short, vec![]), "{name}");
        }
    }
}

/// M1's entries are n, which M2 lists and doesn't know, and the message that M2 knows.
#[test]
fn m2_with_m1() {
    let [m1, m2] = ["M1", "M2"].map(submission);
    let [own, other] = [&m1, &m2].map(|bytes| Bodies::read(bytes).unwrap());
    assert_eq!(other.terms, own.terms);
    let joined = Bodies::read(&pool(&m2, &m1)).unwrap();
    assert_eq!(joined, Bodies { knowledge: vec![2, 0], ..other });
    assert!(verdict(&m2).starts_with("refused 9 0"));
    assert!(verdict(&joined.submission()).starts_with("accepted 1"));
    assert_eq!(pool(&m1, &m2), m1);
}

#[test]
fn what_is_missing_is_added_in_order_and_renumbered() {
    let first: &[[u8; 3]] = &[[1, 0, 1], [1, 0, 2], [4, 0, 1]];
    let second: &[[u8; 3]] =
        &[[1, 0, 2], [1, 0, 1], [4, 1, 0], [4, 0, 1], [1, 0, 3], [4, 2, 4], [5, 5, 4], [7, 6, 0]];
    let (terms, knowledge) = pooled((first, &[1]), (second, &[6, 0, 2, 4]));
    let added: &[[u8; 3]] = &[[4, 1, 0], [1, 0, 3], [4, 2, 4], [5, 5, 4], [7, 6, 0]];
    assert_eq!(terms, [first, added].concat());
    assert_eq!(knowledge, [1, 6, 2, 4]);
}

#[test]
fn equal_records_may_be_different_terms_and_others_equal_ones() {
    let first: &[[u8; 3]] = &[[1, 0, 1], [1, 0, 2], [4, 0, 1]];
    let second: &[[u8; 3]] = &[[1, 0, 2], [1, 0, 1], [4, 0, 1], [4, 1, 0]];
    let (terms, knowledge) = pooled((first, &[2]), (second, &[2, 3]));
    assert_eq!(terms, [first, &[[4, 1, 0]]].concat());
    assert_eq!(knowledge, [2, 3]);
}

/// Neither the bytes of names nor the 0 of a hash are renumbered.
#[test]
fn only_parts_are_renumbered() {
    let first: &[[u8; 3]] = &[[1, 9, 9]];
    for kind in Kind::atoms() {
        let second: &[[u8; 3]] = &[[1, 0, 9], [kind.number(), 0, 1], [7, 0, 0], [7, 2, 0]];
        let (terms, _) = pooled((first, &[]), (second, &[]));
        let added: &[[u8; 3]] = &[[1, 0, 9], [kind.number(), 0, 1], [7, 1, 0], [7, 3, 0]];
        assert_eq!(terms, [first, added].concat());
    }
}

#[test]
fn keys_are_renumbered_too() {
    let first: &[[u8; 3]] = &[[1, 0, 1], [2, 0, 1], [7, 0, 0]];
    let second: &[[u8; 3]] =
        &[[3, 0, 1], [1, 0, 1], [7, 1, 0], [2, 0, 1], [5, 0, 1], [5, 0, 2], [6, 1, 3], [6, 1, 0]];
    let (terms, _) = pooled((first, &[]), (second, &[]));
    let added: &[[u8; 3]] = &[[3, 0, 1], [5, 3, 0], [5, 3, 2], [6, 0, 1], [6, 0, 3]];
    assert_eq!(terms, [first, added].concat());
}

#[test]
fn derivation_and_claim_are_the_first_s() {
    let [m3, m8] = ["M3", "M8"].map(submission);
    for (first, second) in [(&m3, &m8), (&m8, &m3)] {
        let own = Bodies::read(first).unwrap();
        let joined = Bodies::read(&pool(first, second)).unwrap();
        assert_eq!((joined.derivation, joined.claim), (own.derivation, own.claim));
        assert!(joined.terms.starts_with(&own.terms));
        assert!(joined.knowledge.starts_with(&own.knowledge));
    }
}

/// The answer for so many terms of each, of which so many are in both.
fn answer_to_terms(first: usize, second: usize, both: usize) -> u32 {
    let [first, second] = [atoms(0..first), atoms(first - both..first - both + second)]
        .map(|terms| listed(&terms, &[]).submission());
    found(&first, &second, LONGEST_SUBMISSION).0
}

/// The answer for so many entries of each.
fn answer_to_entries(first: usize, second: usize, both: usize) -> u32 {
    let entries = |count: usize| (0..count).map(|entry| entry as u8).collect::<Vec<u8>>();
    let [first, second] = [atoms(0..first + 1), atoms(first - both..first - both + second + 1)]
        .map(|terms| listed(&terms, &entries(terms.len() - 1)).submission());
    found(&first, &second, LONGEST_SUBMISSION).0
}

#[test]
fn a_pool_above_the_limits_is_refused() {
    let length = |terms: usize, entries: usize| (20 + 3 * terms + entries) as u32;
    for (first, second, both) in
        [(125, 125, 0), (249, 1, 0), (1, 249, 0), (250, 250, 250), (200, 150, 100)]
    {
        assert_eq!(answer_to_terms(first, second, both), length(250, 0), "{first} {second}");
    }
    for (first, second, both) in
        [(125, 126, 0), (250, 1, 0), (1, 250, 0), (250, 250, 249), (250, 250, 0), (128, 128, 0)]
    {
        assert_eq!(answer_to_terms(first, second, both), 20 * REFUSAL, "{first} {second}");
    }
    for (first, second, both) in [(32, 32, 0), (63, 1, 0), (64, 64, 64), (50, 40, 26)] {
        let terms = first + second - both + 1;
        let expected = length(terms, 64);
        assert_eq!(answer_to_entries(first, second, both), expected, "{first} {second}");
    }
    for (first, second, both) in [(32, 33, 0), (64, 1, 0), (64, 64, 63), (64, 64, 0)] {
        assert_eq!(answer_to_entries(first, second, both), 20 * REFUSAL, "{first} {second}");
    }
}

#[test]
fn the_longest_pool() {
    let both: Vec<u8> = (0..32).collect();
    let first = Bodies {
        derivation: vec![[9; 4]; Body::Derivation.most()],
        ..listed(&atoms(0..125), &both)
    };
    let second = listed(&atoms(200..325), &both);
    let pool = pool(&first.submission(), &second.submission());
    assert_eq!(pool.len(), LONGEST_SUBMISSION);
}

#[test]
fn refusals_come_in_their_order() {
    let good = listed(&atoms(0..250), &[0]);
    let other = listed(&atoms(1..251), &[0]);
    let with = |own: &Bodies, change: fn(&mut Bodies)| {
        let mut bodies = own.clone();
        change(&mut bodies);
        bodies.submission()
    };
    let bad = |own: &Bodies| {
        [
            (vec![], REFUSAL),
            (with(own, |bodies| bodies.terms.clear()), 2 * REFUSAL),
            (with(own, |bodies| bodies.knowledge = vec![0; 65]), 2 * REFUSAL + 1),
            (with(own, |bodies| bodies.derivation = vec![[0; 4]; 129]), 2 * REFUSAL + 2),
            (with(own, |bodies| bodies.terms[7] = bodies.terms[5]), 3 * REFUSAL + 7),
            (with(own, |bodies| bodies.knowledge.push(250)), 4 * REFUSAL + 1),
            (with(own, |bodies| bodies.claim = [0, 254, b'k', 0]), 5 * REFUSAL),
        ]
    };
    for page in [0, LONGEST_SUBMISSION] {
        for (first, expected) in bad(&good) {
            assert_eq!(found(&first, &other.submission(), page).0, expected);
            for (second, _) in bad(&other) {
                assert_eq!(found(&first, &second, page).0, expected);
            }
        }
        for (second, expected) in bad(&other) {
            assert_eq!(found(&good.submission(), &second, page).0, expected);
        }
        assert_eq!(found(&good.submission(), &other.submission(), page).0, 20 * REFUSAL);
    }
    assert_eq!(found(&good.submission(), &good.submission(), 0).0, 11 * REFUSAL + 771);
}

/// Steps are not looked at, and 6 to 10 and 16 refuse nothing.
#[test]
fn only_checks_1_to_5_are_made() {
    for name in ["M2", "M4", "M5", "M7", "M9", "own-key-cycle-no-guess", "003-example-3-cut-short"]
    {
        let own = submission(name);
        assert!(verdict(&own).starts_with("refused"), "{name}");
        assert_eq!(pool(&own, &own), own, "{name}");
    }
    let wild = Bodies { derivation: vec![[255; 4]; 3], ..listed(&atoms(0..1), &[]) }.submission();
    assert_eq!(pool(&wild, &wild), wild);
}

#[test]
fn each_fault_is_found() {
    let first: &[[u8; 3]] = &[[1, 0, 1], [1, 0, 2], [4, 0, 1]];
    let second: &[[u8; 3]] = &[[1, 0, 3], [1, 0, 1], [7, 1, 0]];
    let [first, second] =
        [listed(first, &[2]), listed(second, &[2, 0])].map(|bodies| bodies.submission());
    let good = Bodies::read(&pool(&first, &second)).unwrap();
    let find = |change: fn(&mut Bodies)| {
        let mut changed = good.clone();
        change(&mut changed);
        numbers_in_pool(&first, &second, &changed.submission())
    };
    assert_eq!(good.terms[3..], [[1, 0, 3], [7, 0, 0]]);
    assert_eq!(find(|_| ()), Ok(vec![3, 0, 4]));
    let refused = |reason, place| Err(PoolFault::Refused(Refusal { reason, place }));
    assert_eq!(find(|pool| pool.terms.push([7, 5, 0])), refused(Reason::Term, 5));
    assert_eq!(find(|pool| pool.knowledge[2] = 4), refused(Reason::Knowledge, 2));
    assert_eq!(find(|pool| pool.claim[0] = 2), refused(Reason::Claim, 0));
    assert_eq!(find(|pool| pool.terms.swap(0, 1)), Err(PoolFault::Renumbered));
    assert_eq!(find(|pool| pool.terms[2] = [4, 1, 0]), Err(PoolFault::Renumbered));
    assert_eq!(find(|pool| pool.terms[4] = [7, 1, 0]), Err(PoolFault::OtherTerms));
    assert_eq!(find(|pool| pool.terms.push([7, 1, 0])), Err(PoolFault::OtherTerms));
    assert_eq!(find(|pool| pool.terms.swap(3, 4)), Err(PoolFault::OtherTerms));
    assert_eq!(find(|pool| pool.knowledge.swap(0, 1)), Err(PoolFault::OtherKnowledge));
    assert_eq!(find(|pool| pool.knowledge.swap(1, 2)), Err(PoolFault::OtherKnowledge));
    assert_eq!(find(|pool| pool.knowledge.push(0)), Err(PoolFault::OtherKnowledge));
    assert_eq!(find(|pool| pool.knowledge.truncate(2)), Err(PoolFault::OtherKnowledge));
    assert_eq!(find(|pool| pool.knowledge[2] = 1), Err(PoolFault::OtherKnowledge));
    assert_eq!(find(|pool| pool.derivation.push([0; 4])), Err(PoolFault::OtherDerivation));
    assert_eq!(find(|pool| pool.claim[0] = 1), Err(PoolFault::OtherClaim));
    let cut = numbers_in_pool(&first, &second, &first);
    assert_eq!(cut, Err(PoolFault::OtherTerms));
}

/// On pairs of all kinds.
#[test]
fn what_is_promised_holds() {
    let mut source = Source::new(23);
    let [mut pools, mut given] = [0; 2];
    for pair in (0..3_000).flat_map(|_| source.next_input().pairs) {
        let Ok(joint) = Joint::of(&pair.first, &pair.second) else { continue };
        let Ok(pool) = joint.submission() else { continue };
        let numbers = numbers_in_pool(&pair.first, &pair.second, &pool);
        assert_eq!(numbers.as_ref(), Ok(&joint.numbers()));
        assert_eq!(self::pool(&pair.first, &pair.first), pair.first);
        assert_eq!(self::pool(&pool, &pair.first), pool);
        assert_eq!(self::pool(&pool, &pair.second), pool);
        pools += 1;
        let [first, second, whole] =
            [&pair.first, &pair.second, &pool].map(|bytes| Deductions::of(bytes).unwrap());
        for (number, pooled) in numbers.unwrap().into_iter().enumerate() {
            if second.deducible(number as u8) == Ok(true) {
                assert_eq!(whole.deducible(pooled), Ok(true));
                given += 1;
            }
        }
        for number in (0..u8::MAX).take_while(|&number| first.deducible(number).is_ok()) {
            if first.deducible(number) == Ok(true) {
                assert_eq!(whole.deducible(number), Ok(true));
                given += 1;
            }
        }
    }
    assert!(pools > 3_000 && given > 20_000, "{pools} {given}");
}
