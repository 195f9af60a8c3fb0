//! The reference's reading of programs back to a derivation and a claim.

use checker_tests::bodies::Bodies;
use checker_tests::examples;
use checker_tests::generate::Source;
use checker_tests::notation::assemble;
use checker_tests::page::called;
use checker_tests::reference::{derivation_and_claim, program, read_back, run, verdict, REFUSAL};
use checker_tests::tables::{Rule, LONGEST_READ_BACK};

/// Registers r0 to r2 hold n, its encryption under g and a public key; r3 holds the guess g.
const SUBMISSION: &str = "
terms
  n
  plain 2
  t2 = enc(n, plain 2)
  public a
  private a
  t5 = hash(plain 2)
  t6 = enc(private a, plain 2)
knowledge
  n
  t2
  public a
derivation
  0: n = dec(t2, plain 2)
claim
  guess plain 2
  step 0
  way b
";

const N: u8 = 0;
const MESSAGE: u8 = 1;
const PUBLIC: u8 = 2;
const GUESS: u8 = 3;
const FIRST: u8 = 4;

fn submission() -> Vec<u8> {
    assemble(SUBMISSION).unwrap()
}

/// A program: its count of instructions, the instructions, and the test.
fn sent(instructions: &[(Rule, u8, u8)], test: (u8, u8, u8)) -> Vec<u8> {
    let mut program = vec![instructions.len() as u8];
    for &(rule, first, second) in instructions {
        program.extend([rule.number(), first, second]);
    }
    program.extend(<[u8; 3]>::from(test));
    program
}

/// What reading back answers on a page of this length, and the page's first bytes: those that it has to
/// write, or none where it refuses. All the others are as before.
fn written(submission: &[u8], program: &[u8], page: usize) -> (u32, Vec<u8>) {
    called(page, usize::from, |page| read_back(submission, program, page))
}

/// What reading back writes, or its refusal as one number.
fn bodies(instructions: &[(Rule, u8, u8)], test: (u8, u8, u8)) -> Result<Vec<u8>, u32> {
    let program = sent(instructions, test);
    let (answer, bodies) = written(&submission(), &program, LONGEST_READ_BACK);
    if answer == bodies.len() as u32 {
        Ok(bodies)
    } else {
        Err(answer)
    }
}

/// The verdict on the submission with the bodies that this is read back to.
fn verdict_on(instructions: &[(Rule, u8, u8)], test: (u8, u8, u8)) -> String {
    let own = Bodies::read(&submission()).unwrap();
    let read_back = bodies(instructions, test).unwrap();
    verdict(&own.with(&read_back).submission()).lines().next().unwrap().to_string()
}

const DEC: (Rule, u8, u8) = (Rule::Dec, MESSAGE, GUESS);
const HASH: (Rule, u8, u8) = (Rule::Hash, GUESS, 0);

/// No term is listed for the hash of n.
const STRAY: (Rule, u8, u8) = (Rule::Hash, N, 0);

#[test]
fn m1_and_m8_give_back_their_own() {
    let m1 = [4, 2, 1, 0, 1, 0, b'b', 0];
    for page in [8, 9, 100, LONGEST_READ_BACK, 65_536 + 7] {
        let found = written(&examples::submission("M1"), &[1, 4, 1, 2, b'=', 3, 0], page);
        assert_eq!(found, (8, m1.to_vec()), "{page}");
    }
    let m8 = [4, 3, 0, 1, 0, 0, b'c', 2];
    let found = written(&examples::submission("M8"), &[1, 4, 0, 2, b'i', 3, 1], 8);
    assert_eq!(found, (8, m8.to_vec()));
}

#[test]
fn each_accepted_example_gives_back_its_own() {
    for name in examples::names() {
        let submission = examples::submission(&name);
        let Ok(page) = program(&submission) else { continue };
        let own = Bodies::read(&submission).unwrap();
        let [.., derivation, claim] = own.bytes();
        let read_back = derivation_and_claim(&submission, &page).unwrap();
        assert_eq!(read_back, [derivation, claim].concat(), "{name}");
        assert_eq!(program(&own.with(&read_back).submission()), Ok(page), "{name}");
    }
}

/// The steps have the terms that the registers hold, and 0 for what a rule does not use.
#[test]
fn steps() {
    let claim = [1, 0, b'b', 0];
    let steps = |instructions: &[(Rule, u8, u8)]| {
        let read_back = bodies(instructions, (b'=', FIRST, N)).unwrap();
        let (steps, found) = read_back.split_at(read_back.len() - 4);
        assert_eq!(found, claim);
        steps.to_vec()
    };
    assert_eq!(steps(&[DEC]), [4, 2, 1, 0]);
    assert_eq!(steps(&[HASH]), [7, 1, 0, 5]);
    assert_eq!(steps(&[(Rule::Enc, N, GUESS)]), [3, 0, 1, 2]);
    let any_register = [DEC, (Rule::Enc, FIRST, GUESS), (Rule::Dec, FIRST + 1, GUESS)];
    assert_eq!(steps(&any_register), [4, 2, 1, 0, 3, 0, 1, 2, 4, 2, 1, 0]);
    assert_eq!(steps(&[HASH, HASH, DEC]), [7, 1, 0, 5, 7, 1, 0, 5, 4, 2, 1, 0]);
}

/// Each test over the registers of entries, of the guess and of two steps.
#[test]
fn claims() {
    let (first, second) = (FIRST, FIRST + 1);
    let no_claim = Err(18 * REFUSAL);
    let claims = [
        ((b'=', GUESS, first), Ok([1, 0, b'k', 0])),
        ((b'=', GUESS, second), Ok([1, 1, b'k', 0])),
        ((b'i', GUESS, first), Ok([1, 0, b'j', 0])),
        ((b'i', GUESS, second), Ok([1, 1, b'j', 0])),
        ((b'=', GUESS, N), Ok([1, 255, b'k', 0])),
        ((b'=', GUESS, PUBLIC), Ok([1, 255, b'k', 0])),
        ((b'i', GUESS, N), Ok([1, 255, b'j', 0])),
        ((b'i', GUESS, PUBLIC), Ok([1, 255, b'j', 0])),
        ((b'=', GUESS, GUESS), no_claim),
        ((b'i', GUESS, GUESS), no_claim),
        ((b'=', first, second), Ok([1, 0, b'a', 1])),
        ((b'=', second, first), Ok([1, 1, b'a', 0])),
        ((b'=', first, first), Ok([1, 0, b'a', 0])),
        ((b'=', first, N), Ok([1, 0, b'b', 0])),
        ((b'=', first, MESSAGE), Ok([1, 0, b'b', 0])),
        ((b'=', second, PUBLIC), Ok([1, 1, b'b', 0])),
        ((b'=', second, GUESS), Ok([1, 1, b'b', 0])),
        ((b'i', first, N), Ok([1, 0, b'c', 0])),
        ((b'i', first, MESSAGE), Ok([1, 0, b'c', 2])),
        ((b'i', first, PUBLIC), Ok([1, 0, b'c', 3])),
        ((b'i', second, GUESS), Ok([1, 1, b'c', 1])),
        ((b'i', second, first), Ok([1, 1, b'c', 0])),
        ((b'i', first, second), Ok([1, 0, b'c', 5])),
        ((b'=', N, N), no_claim),
        ((b'=', PUBLIC, GUESS), no_claim),
        ((b'=', N, first), no_claim),
        ((b'i', MESSAGE, PUBLIC), no_claim),
        ((b'i', PUBLIC, GUESS), no_claim),
        ((b'i', N, second), no_claim),
    ];
    for (test, expected) in claims {
        let found = bodies(&[DEC, HASH], test).map(|bodies| bodies[8..].to_vec());
        assert_eq!(found, expected.map(|claim: [u8; 4]| claim.to_vec()), "{test:?}");
    }
}

#[test]
fn no_instructions() {
    assert_eq!(bodies(&[], (b'=', GUESS, N)), Ok(vec![1, 255, b'k', 0]));
    assert_eq!(bodies(&[], (b'i', GUESS, PUBLIC)), Ok(vec![1, 255, b'j', 0]));
    for test in [(b'=', GUESS, GUESS), (b'i', N, GUESS), (b'=', PUBLIC, PUBLIC)] {
        assert_eq!(bodies(&[], test), Err(18 * REFUSAL), "{test:?}");
    }
}

#[test]
fn the_most_instructions() {
    let most = [DEC; 128];
    let expected = [[4, 2, 1, 0].repeat(128), vec![1, 127, b'a', 0]].concat();
    assert_eq!(bodies(&most, (b'=', FIRST + 127, FIRST)), Ok(expected));
    for stray in [0, 64, 127] {
        let mut instructions = most;
        instructions[stray] = STRAY;
        let found = bodies(&instructions, (b'=', FIRST, N));
        assert_eq!(found, Err(17 * REFUSAL + 4 + stray as u32));
    }
}

/// Also where a later register holds a listed term again.
#[test]
fn off_the_table() {
    let test = (b'=', FIRST, N);
    let place = |instructions: &[(Rule, u8, u8)]| bodies(instructions, test).unwrap_err();
    assert_eq!(place(&[STRAY]), 17 * REFUSAL + 4);
    assert_eq!(place(&[DEC, STRAY]), 17 * REFUSAL + 5);
    assert_eq!(place(&[DEC, STRAY, HASH]), 17 * REFUSAL + 5);
    assert_eq!(place(&[DEC, STRAY, STRAY]), 17 * REFUSAL + 5);
    assert_eq!(place(&[(Rule::Fst, N, 0)]), 17 * REFUSAL + 4);
    assert_eq!(place(&[DEC, (Rule::Dec, MESSAGE, PUBLIC)]), 17 * REFUSAL + 5);
    let reduced = [(Rule::Enc, N, PUBLIC), (Rule::Dec, FIRST, PUBLIC)];
    assert_eq!(place(&reduced), 17 * REFUSAL + 4);
    let of_parts = [(Rule::Fst, GUESS, 0), (Rule::Snd, GUESS, 0), (Rule::Pair, FIRST, FIRST + 1)];
    assert_eq!(place(&of_parts), 17 * REFUSAL + 4);
    assert_eq!(place(&[DEC, (Rule::Hash, FIRST, 0), DEC]), 17 * REFUSAL + 5);
}

/// A term is listed whether or not anything shows it. Private a is under the guess only.
#[test]
fn listed_terms_need_not_be_known() {
    let own = Bodies::read(&submission()).unwrap();
    let known = Bodies { knowledge: vec![6, 3], ..own }.submission();
    let program = sent(&[(Rule::Dec, 0, 2)], (b'i', 3, 1));
    let expected = vec![4, 6, 1, 4, 1, 0, b'c', 3];
    assert_eq!(written(&known, &program, 8), (8, expected));
}

#[test]
fn the_refusals_in_their_order() {
    let letters = submission()[1..].to_vec();
    let mut claim = Bodies::read(&submission()).unwrap();
    claim.claim[1] = 1;
    let good = sent(&[DEC], (b'=', FIRST, N));
    let bad = sent(&[STRAY], (b'?', N, N));
    let off = sent(&[STRAY], (b'=', N, N));
    let nothing = sent(&[DEC], (b'=', N, N));
    for page in [0, 7, 8] {
        assert_eq!(written(&letters, &bad, page).0, REFUSAL);
        assert_eq!(written(&claim.submission(), &bad, page).0, 5 * REFUSAL);
        assert_eq!(written(&claim.submission(), &good, page).0, 5 * REFUSAL);
        assert_eq!(written(&submission(), &bad, page).0, 13 * REFUSAL);
        assert_eq!(written(&submission(), &[], page).0, 13 * REFUSAL);
        assert_eq!(written(&submission(), &off, page).0, 17 * REFUSAL + 4);
        assert_eq!(written(&submission(), &nothing, page).0, 18 * REFUSAL);
    }
    assert_eq!(written(&submission(), &good, 7), (11 * REFUSAL + 8, vec![]));
    assert_eq!(written(&submission(), &good, 8).0, 8);
}

/// The length is that of the program's own count, whatever the submission has.
#[test]
fn a_short_page() {
    for count in [0, 1, 2, 63, 127, 128] {
        let program = sent(&vec![DEC; count], (b'=', GUESS, N));
        let length = 4 * count + 4;
        for page in [0, 1, length - 1] {
            let expected = (11 * REFUSAL + length as u32, vec![]);
            assert_eq!(written(&submission(), &program, page), expected);
        }
        for page in [length, length + 1, 65_536] {
            assert_eq!(written(&submission(), &program, page).0, length as u32);
        }
    }
}

/// Checks 6 to 10 and 16 are none of those that come first, and of the claim only the guess counts.
#[test]
fn the_own_derivation_and_way_do_not_matter() {
    let own = Bodies::read(&submission()).unwrap();
    let program = sent(&[DEC], (b'=', FIRST, N));
    for (derivation, claim) in [
        (vec![[255; 4]], [1, 0, b'b', 0]),
        (vec![[0; 4]; 3], [1, 2, b'a', 1]),
        (vec![], [1, 255, b'k', 0]),
        (vec![[4, 2, 1, 0]], [1, 0, b'c', 6]),
    ] {
        let other = Bodies { derivation, claim, ..own.clone() }.submission();
        let expected = vec![4, 2, 1, 0, 1, 0, b'b', 0];
        assert_eq!(written(&other, &program, 8), (8, expected));
    }
}

/// The smallest case: n is compared with its encryption, and M1's own bodies are read back.
#[test]
fn what_the_second_register_holds_may_not_count() {
    let m1 = examples::submission("M1");
    for second in [0, 1, 2] {
        let program = [1, 4, 1, 2, b'=', 3, second];
        assert_eq!(derivation_and_claim(&m1, &program), Ok(vec![4, 2, 1, 0, 1, 0, b'b', 0]));
        assert_eq!(run(&m1, 2, &program), Ok(second == 0));
    }
    let known = examples::submission("own-M10-known-shown");
    let own = Bodies::read(&known).unwrap();
    for entry in 0..own.knowledge.len() as u8 {
        let program = [0, b'=', own.knowledge.len() as u8, entry];
        assert_eq!(derivation_and_claim(&known, &program), Ok(own.claim.to_vec()));
    }
}

/// What is read back may still be refused.
#[test]
fn checked_again() {
    assert_eq!(verdict_on(&[DEC], (b'=', FIRST, N)), "accepted 1");
    assert_eq!(verdict_on(&[DEC], (b'=', FIRST, GUESS)), "accepted 1");
    assert_eq!(verdict_on(&[], (b'i', GUESS, PUBLIC)), "refused 5 0");
    assert_eq!(verdict_on(&[DEC], (b'=', GUESS, FIRST)), "refused 7 0");
    assert_eq!(verdict_on(&[], (b'=', GUESS, N)), "refused 16 0");
    assert_eq!(verdict_on(&[DEC], (b'=', FIRST, FIRST)), "refused 9 0");
    assert_eq!(verdict_on(&[HASH], (b'=', FIRST, N)), "refused 9 0");
    let undone = [DEC, (Rule::Enc, FIRST, GUESS)];
    assert_eq!(verdict_on(&undone, (b'=', FIRST + 1, MESSAGE)), "refused 10 0");
    let m5 = examples::submission("M5");
    let own = Bodies::read(&m5).unwrap();
    let read_back = derivation_and_claim(&m5, &[2, 4, 1, 3, 1, 4, 0, b'=', 5, 0]).unwrap();
    assert_eq!(own.with(&read_back), own);
}

/// A trace of 5.2.4 in 004 in another order, and with a step more.
#[test]
fn another_order() {
    let submission = examples::submission("004-5.2.4-guessed");
    let own = Bodies::read(&submission).unwrap();
    let again = |program: &[u8]| own.with(&derivation_and_claim(&submission, program).unwrap());
    let turned = again(&[4, 4, 1, 2, 2, 3, 0, 1, 3, 0, 4, 0, 5, b'=', 6, 4]);
    let [opened, fst, dec, snd] = own.derivation[..] else { panic!("four steps") };
    assert_eq!(turned.derivation, [opened, snd, fst, dec]);
    assert_eq!(turned.claim, [own.claim[0], 3, b'a', 1]);
    assert!(verdict(&turned.submission()).starts_with("accepted 4\n"));
    let more = again(&[5, 4, 1, 2, 4, 1, 2, 1, 4, 0, 4, 0, 5, 2, 3, 0, b'=', 6, 7]);
    assert_eq!(more.derivation, [opened, opened, fst, dec, snd]);
    assert_eq!(more.claim, [own.claim[0], 3, b'a', 4]);
    let page = program(&more.submission()).unwrap();
    assert_eq!(page, [5, 4, 1, 2, 4, 1, 2, 1, 3, 0, 4, 0, 5, 2, 3, 0, b'=', 6, 7]);
    assert_eq!(again(&page), more);
}

/// With many random submissions: the page gives back its own, and what is read back has the shapes of
/// its rules and, where it is accepted, is what its page gives back.
#[test]
fn there_and_back() {
    let mut source = Source::new(17);
    let [mut own_pages, mut others] = [0; 2];
    while own_pages < 1000 {
        let input = source.next_input();
        let is_accepted = program(&input.submission).is_ok();
        for (number, sent) in input.sent.iter().enumerate() {
            let Ok(bodies) = derivation_and_claim(&input.submission, &sent.program) else {
                continue;
            };
            let own = Bodies::read(&input.submission).unwrap();
            let again = own.with(&bodies);
            match program(&again.submission()) {
                Ok(page) => {
                    let found = derivation_and_claim(&again.submission(), &page);
                    assert_eq!(found, Ok(bodies), "{own:?}");
                    if is_accepted && number == 0 {
                        assert_eq!((again, page), (own, sent.program.clone()));
                        own_pages += 1;
                    } else {
                        others += 1;
                    }
                }
                Err(refusal) => {
                    let numbers = [5, 7, 8, 9, 10, 16];
                    assert!(numbers.contains(&refusal.reason.number()), "{own:?}");
                }
            }
        }
    }
    assert!(others > 1000);
}
